//! The formula of a plan text, as its tree. Paper 01, section Plan text.

/// Relations by the number that the plan table stores: < <= = != >= >.
pub const RELATIONS: [&str; 6] = ["<", "<=", "=", "!=", ">=", ">"];

/// "to the opposite [..] relation"
pub fn opposite(relation: u8) -> u8 {
    match relation {
        0 => 4,
        1 => 5,
        2 => 3,
        3 => 2,
        4 => 0,
        _ => 1,
    }
}

/// The tree of a text, arrows and negations included.
#[derive(Debug, Clone, PartialEq)]
pub enum Tree {
    Right(Box<Tree>, Box<Tree>),
    Left(Box<Tree>, Box<Tree>),
    Both(Box<Tree>, Box<Tree>),
    Or(Vec<Tree>),
    And(Vec<Tree>),
    Not(Box<Tree>),
    All(u8, Box<Tree>),
    Some(u8, Box<Tree>),
    In(u8, u8),
    NotIn(u8, u8),
    Compare(u8, u8, u8),
    /// Set, relation, constant; a constant of many digits stands as the largest number.
    Size(u8, u8, u64),
}

/// The formulas directly inside of one.
pub fn parts_of(tree: &Tree) -> Vec<&Tree> {
    match tree {
        Tree::Right(f, g) | Tree::Left(f, g) | Tree::Both(f, g) => vec![f, g],
        Tree::Or(parts) | Tree::And(parts) => parts.iter().collect(),
        Tree::Not(f) | Tree::All(_, f) | Tree::Some(_, f) => vec![f],
        _ => Vec::new(),
    }
}
