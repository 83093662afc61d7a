//! The grounds for refusal of paper 01, and those that the requests of paper 02 add.
use std::fmt;

/// Why a call was refused. A refused call has written nothing.
///
/// The paper numbers its grounds, and later papers add to them: a number that this version has no word for is
/// [`Refusal::Other`].
///
/// ```
/// use vuyekhang::{read, Refusal};
///
/// let refusal = read(3, b"[S] #S < 65", &mut [0; 100]).unwrap_err();
/// assert_eq!(refusal, Refusal::ConstantTooLarge);
/// assert_eq!(refusal.number(), 6);
/// assert_eq!(refusal.to_string(), "refused (6): a constant above 64");
/// ```
#[derive(Debug, Clone, Copy, PartialEq, Eq, Hash)]
#[non_exhaustive]
pub enum Refusal {
    /// 1: the text is over 4,096 bytes.
    TextTooLong,
    /// 2: a byte of no token, space or line end. A lone `-` or `!` falls to 3.
    UnknownByte,
    /// 3: the text is outside the grammar.
    OutsideGrammar,
    /// 4: more than 64 of `(`, `~` and quantifiers around one token.
    NestedTooDeep,
    /// 5: a set undeclared, declared twice or a seventeenth; a variable unbound or bound again within its reach.
    WrongName,
    /// 6: a constant above 64.
    ConstantTooLarge,
    /// 7: a fourth enclosing quantifier.
    FourthQuantifier,
    /// 8: the core has more than 512 nodes.
    TooManyNodes,
    /// 9: the plan has more than 1,048,576 cells.
    TooManyCells,
    /// 10: u is outside 1 to 64.
    WrongPortCount,
    /// 11: the plan table breaks a rule or is cut short.
    BrokenTable,
    /// 12: a cell, scratch, mask or output table is too short, or a record count is past the journal's length or past 1,024.
    TooShort,
    /// 13: a mask has a port of u or more.
    PortOutsidePlan,
    /// 14: an unknown kind, set, port or sum of kinds, or an unused field that is not 0.
    UnknownMove,
    /// 15: the move is not legal.
    IllegalMove,
    /// 16: the list that is lent for moves is too short.
    ListTooShort,
    /// 17: the plan's text would be over 4,096 bytes, or have more than 64 of `(` and quantifiers around one token.
    Unwritable,
    /// 18: the journal is full: the record count is its length or 1,024.
    JournalFull,
    /// 19: there is no move to take back: the record count is 0.
    JournalEmpty,
    /// 20: the port is already in that condition: in test where a test is to begin, or not in test where one is to end.
    AlreadyInCondition,
    /// A ground that this version does not name. Only the engine's own answers make one, so that it never stands for a ground
    /// that has a name.
    #[non_exhaustive]
    Other {
        /// The ground's number.
        number: u32,
    },
}

/// Each ground with its meaning; ground n stands at n - 1.
const GROUNDS: [(Refusal, &str); 20] = [
    (Refusal::TextTooLong, "text over 4,096 bytes"),
    (Refusal::UnknownByte, "a byte of no token, space or line end"),
    (Refusal::OutsideGrammar, "text outside the grammar"),
    (Refusal::NestedTooDeep, "more than 64 of `(`, `~` and quantifiers around one token"),
    (Refusal::WrongName, "a set undeclared, declared twice or a seventeenth, or a variable unbound or bound again within its reach"),
    (Refusal::ConstantTooLarge, "a constant above 64"),
    (Refusal::FourthQuantifier, "a fourth enclosing quantifier"),
    (Refusal::TooManyNodes, "a core of more than 512 nodes"),
    (Refusal::TooManyCells, "more than 1,048,576 cells"),
    (Refusal::WrongPortCount, "a number of ports outside 1 to 64"),
    (Refusal::BrokenTable, "plan table breaks a rule or is cut short"),
    (Refusal::TooShort, "cell, scratch, mask or output table too short, or record count past the journal"),
    (Refusal::PortOutsidePlan, "a mask with a port of u or more"),
    (Refusal::UnknownMove, "unknown kind, set, port or sum of kinds, or an unused field not 0"),
    (Refusal::IllegalMove, "move not legal"),
    (Refusal::ListTooShort, "list of moves too short"),
    (Refusal::Unwritable, "the plan's text would be over 4,096 bytes or have more than 64 of `(` and quantifiers around one token"),
    (Refusal::JournalFull, "journal full"),
    (Refusal::JournalEmpty, "no move in the journal to take back"),
    (Refusal::AlreadyInCondition, "port already in test, or already not in test"),
];

impl Refusal {
    /// The ground of an answer's number.
    pub(crate) fn of(number: u32) -> Refusal {
        (number as usize).checked_sub(1).and_then(|at| GROUNDS.get(at)).map_or(Refusal::Other { number }, |ground| ground.0)
    }

    /// The ground's number in the paper.
    pub fn number(&self) -> u32 {
        match self {
            Refusal::TextTooLong => 1,
            Refusal::UnknownByte => 2,
            Refusal::OutsideGrammar => 3,
            Refusal::NestedTooDeep => 4,
            Refusal::WrongName => 5,
            Refusal::ConstantTooLarge => 6,
            Refusal::FourthQuantifier => 7,
            Refusal::TooManyNodes => 8,
            Refusal::TooManyCells => 9,
            Refusal::WrongPortCount => 10,
            Refusal::BrokenTable => 11,
            Refusal::TooShort => 12,
            Refusal::PortOutsidePlan => 13,
            Refusal::UnknownMove => 14,
            Refusal::IllegalMove => 15,
            Refusal::ListTooShort => 16,
            Refusal::Unwritable => 17,
            Refusal::JournalFull => 18,
            Refusal::JournalEmpty => 19,
            Refusal::AlreadyInCondition => 20,
            Refusal::Other { number } => *number,
        }
    }
}

impl fmt::Display for Refusal {
    fn fmt(&self, f: &mut fmt::Formatter<'_>) -> fmt::Result {
        let meaning = GROUNDS.iter().find(|ground| ground.0 == *self).map_or("a ground that this version does not name", |ground| ground.1);
        write!(f, "refused ({}): {meaning}", self.number())
    }
}

impl std::error::Error for Refusal {}
