//! Random texts that nest about as deep as a text may, or much deeper, sound ones and ones that are broken at any place. Everything
//! follows from a seed.
use crate::random::{letter, Random, Text};
use crate::second::formula::RELATIONS;
use crate::second::text::LONGEST_TEXT;

const ARROWS: [&str; 3] = ["->", "<-", "<->"];

/// Nests `(`, `~` and quantifiers in each other, with other parts beside what is nested.
struct Nest<'a> {
    r: &'a mut Random,
    /// What stands before the nested part, and behind it, the innermost level first.
    before: Vec<String>,
    behind: Vec<String>,
    /// How many variables are bound.
    bound: usize,
    /// The most quantifiers.
    quantifiers: usize,
    /// How many of a hundred brackets have another part before what is nested in them, and as many behind it.
    beside: usize,
    /// How many levels may be opened yet.
    room: usize,
}

fn words(tokens: &[&str]) -> Vec<String> {
    tokens.iter().map(|token| token.to_string()).collect()
}

impl Nest<'_> {
    fn variable(&mut self) -> String {
        letter(b'a', self.r.below(self.bound))
    }

    /// About the one set, or about variables that are bound.
    fn literal(&mut self) -> Vec<String> {
        let relation = self.r.pick(&RELATIONS);
        if self.bound == 0 || self.r.chance(25) {
            return words(&["#", "S", relation, self.r.pick(&["0", "1", "2"])]);
        }
        let v = self.variable();
        match self.r.below(3) {
            0 => words(&[&v, ":", "S"]),
            1 => words(&[&v, "/", "S"]),
            _ => words(&[&v, relation, &self.variable()]),
        }
    }

    /// A literal, at times inside of some levels of its own, up to the last that may be opened: they end before the next part begins.
    fn part(&mut self) -> Vec<String> {
        let levels = self.r.one_of(&[0, 0, 0, 0, 1, 3, self.room]).min(self.room);
        let (outer, mut tokens, mut closing) = (self.bound, Vec::new(), Vec::new());
        for _ in 0..levels {
            match self.r.below(8) {
                0 if self.bound < self.quantifiers => tokens.extend(self.quantifier()),
                0..=3 => {
                    tokens.push("(".to_string());
                    closing.push(")".to_string());
                }
                _ => tokens.push("~".to_string()),
            }
        }
        let literal = self.literal();
        self.bound = outer;
        [tokens, literal, closing].concat()
    }

    /// Binds one variable more.
    fn quantifier(&mut self) -> [String; 2] {
        self.bound += 1;
        [self.r.pick(&["@", "?"]).to_string(), letter(b'a', self.bound - 1)]
    }

    /// A sign that joins two parts: most often `&` or `|`; an arrow only where there is none yet.
    fn sign(&mut self, arrow: bool) -> &'static str {
        if arrow && self.r.chance(10) {
            return self.r.pick(&ARROWS);
        }
        self.r.pick(&["&", "|"])
    }

    fn open_bracket(&mut self) {
        self.before.push("(".to_string());
        let mut arrow = true;
        if self.r.chance(self.beside) {
            let (part, sign) = (self.part(), self.sign(true));
            arrow = !ARROWS.contains(&sign);
            self.before.extend(part);
            self.before.push(sign.to_string());
        }
        let mut behind = Vec::new();
        if self.r.chance(self.beside) {
            behind.push(self.sign(arrow).to_string());
            behind.extend(self.part());
        }
        behind.push(")".to_string());
        self.behind.splice(0..0, behind);
    }

    /// One level more, by one of some signs.
    fn open(&mut self, signs: &str) {
        self.room = self.room.saturating_sub(1);
        match signs.as_bytes()[self.r.below(signs.len())] {
            b'~' => self.before.push("~".to_string()),
            b'@' if self.bound < self.quantifiers => {
                let quantifier = self.quantifier();
                self.before.extend(quantifier);
            }
            _ => self.open_bracket(),
        }
    }

    fn bytes(&self) -> usize {
        self.before.iter().chain(&self.behind).map(String::len).sum()
    }

    fn text(mut self) -> Vec<String> {
        let literal = self.literal();
        [self.before, literal, self.behind].concat()
    }
}

/// A sound text of so many levels, or of as many as so many bytes hold.
fn nested(r: &mut Random, beside: usize, levels: usize, bytes: usize) -> Text {
    // More than three are 7, and more than 26 bind a letter again, which is 5.
    let quantifiers = r.one_of(&[0, 1, 2, 3, 3, 4, 70]);
    let signs = r.pick(&["(", "(~", "((~@", "(~~@", "(@", "~@"]);
    let u = 1 + r.below(3) as u64;
    let mut nest = Nest { r, before: words(&["[", "S", "]"]), behind: Vec::new(), bound: 0, quantifiers, beside, room: levels };
    while nest.room > 0 && nest.bytes() < bytes {
        nest.open(signs);
    }
    Text { u, tokens: nest.text() }
}

/// Whether a literal ends with this token.
fn ends_literal(tokens: &[String], at: usize) -> bool {
    let before = at.checked_sub(1).map(|i| tokens[i].as_str());
    before.is_some_and(|sign| sign == ":" || sign == "/" || RELATIONS.contains(&sign))
}

/// The place of one of the tokens that are asked for, where there are any.
fn place(tokens: &[String], r: &mut Random, asked: impl Fn(usize) -> bool) -> Option<usize> {
    let places: Vec<usize> = (0..tokens.len()).filter(|at| asked(*at)).collect();
    (!places.is_empty()).then(|| places[r.below(places.len())])
}

/// Breaks a text at one place: a token removed, doubled or exchanged, an arrow put twice, a bracket too many or too few. It may stay
/// sound.
fn break_at_one_place(tokens: &mut Vec<String>, r: &mut Random) {
    let at = r.below(tokens.len());
    match r.below(7) {
        0 => drop(tokens.remove(at)),
        1 => tokens.insert(at, tokens[at].clone()),
        2 => {
            let other = r.below(tokens.len());
            tokens.swap(at, other);
        }
        3 => tokens[at] = r.pick(&["(", ")", "~", "@", "&", "|", "->", "<->", "a", "S", ":", "#", "<", "1"]).to_string(),
        4 => {
            if let Some(end) = place(tokens, r, |at| ends_literal(tokens, at)) {
                let twice = ["->", "#", "S", "<", "1", "<-", "#", "S", "<", "1"];
                tokens.splice(end + 1..end + 1, words(&twice));
            }
        }
        5 => tokens.insert(at, r.pick(&["(", ")"]).to_string()),
        _ => {
            if let Some(bracket) = place(tokens, r, |at| matches!(tokens[at].as_str(), "(" | ")")) {
                tokens.remove(bracket);
            }
        }
    }
}

fn broken(mut text: Text, r: &mut Random) -> Text {
    for _ in 0..r.one_of(&[0, 0, 1, 1, 2]) {
        break_at_one_place(&mut text.tokens, r);
    }
    text
}

/// A sound text of so many levels.
pub fn sound_text(r: &mut Random, levels: usize) -> Text {
    let beside = r.one_of(&[0, 10, 40, 80]);
    nested(r, beside, levels, usize::MAX)
}

/// 58 to 70 levels.
pub fn deep_text(r: &mut Random) -> Text {
    let levels = 58 + r.below(13);
    let text = sound_text(r, levels);
    broken(text, r)
}

/// Hundreds of levels, or thousands.
pub fn deepest_text(r: &mut Random) -> Text {
    let bytes = r.one_of(&[500, 1500, 2400, 3900]);
    let text = nested(r, 0, LONGEST_TEXT, bytes);
    broken(text, r)
}
