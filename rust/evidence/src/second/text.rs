//! Plan text: tokens, grammar, grounds 1 to 10 and 12. Paper 01, sections Plan text and Grounds for refusal.
use super::core::{amounts, plan_of};
use super::formula::{parts_of, Tree, RELATIONS};
use super::plan::{Plan, MOST_CELLS, MOST_NODES, MOST_SETS};

pub const LONGEST_TEXT: usize = 4096;
pub const MOST_AROUND: usize = 64;

#[derive(Debug, Clone, PartialEq)]
enum Token {
    Sign(&'static str),
    Upper(u8),
    Lower(u8),
    Number(u64),
}

/// Longest first, so that the first that fits is the longest token.
const SIGNS: [&str; 21] = ["<->", "->", "<-", "<=", ">=", "!=", "<", ">", "=", "[", "]", "(", ")", "@", "?", "~", "&", "|", ":", "/", "#"];

fn known_byte(b: u8) -> bool {
    b == b' ' || b == 10 || b.is_ascii_alphanumeric() || SIGNS.iter().any(|s| s.as_bytes().contains(&b))
}

/// The tokens of a text, or nothing where some part of it is no token.
fn tokens(text: &[u8]) -> Option<Vec<Token>> {
    let mut found = Vec::new();
    let mut at = 0;
    while at < text.len() {
        let b = text[at];
        if b == b' ' || b == 10 {
            at += 1;
        } else if b.is_ascii_digit() {
            let end = (at..text.len()).find(|&i| !text[i].is_ascii_digit()).unwrap_or(text.len());
            if b == b'0' && end - at > 1 {
                return None;
            }
            let digits = std::str::from_utf8(&text[at..end]).expect("digits are text");
            found.push(Token::Number(digits.parse().unwrap_or(u64::MAX)));
            at = end;
        } else if b.is_ascii_uppercase() {
            found.push(Token::Upper(b));
            at += 1;
        } else if b.is_ascii_lowercase() {
            found.push(Token::Lower(b));
            at += 1;
        } else {
            let sign = SIGNS.iter().find(|s| text[at..].starts_with(s.as_bytes()))?;
            found.push(Token::Sign(sign));
            at += sign.len();
        }
    }
    Some(found)
}

/// A reading position over the tokens; `deepest` is the most of `(`, `~` and quantifiers around one token so far.
struct Reader {
    tokens: Vec<Token>,
    at: usize,
    around: usize,
    deepest: usize,
}

impl Reader {
    fn of(text: &[u8]) -> Option<Reader> {
        Some(Reader { tokens: tokens(text)?, at: 0, around: 0, deepest: 0 })
    }

    /// The set letters and the formula's tree.
    fn text(&mut self) -> Option<(Vec<u8>, Tree)> {
        if !self.takes("[") {
            return None;
        }
        let mut sets = vec![self.upper()?];
        while !self.takes("]") {
            sets.push(self.upper()?);
        }
        let tree = self.formula()?;
        (self.at == self.tokens.len()).then_some((sets, tree))
    }

    fn next(&mut self) -> Option<Token> {
        let token = self.tokens.get(self.at)?.clone();
        self.at += 1;
        self.deepest = self.deepest.max(self.around);
        Some(token)
    }

    fn sees(&self, sign: &str) -> bool {
        self.tokens.get(self.at) == Some(&Token::Sign(SIGNS.iter().find(|s| **s == sign).expect("a sign")))
    }

    fn takes(&mut self, sign: &str) -> bool {
        let seen = self.sees(sign);
        if seen {
            self.next();
        }
        seen
    }

    fn upper(&mut self) -> Option<u8> {
        match self.next()? {
            Token::Upper(b) => Some(b),
            _ => None,
        }
    }

    fn lower(&mut self) -> Option<u8> {
        match self.next()? {
            Token::Lower(b) => Some(b),
            _ => None,
        }
    }

    fn relation(&mut self) -> Option<u8> {
        match self.next()? {
            Token::Sign(s) => RELATIONS.iter().position(|r| *r == s).map(|i| i as u8),
            _ => None,
        }
    }

    fn formula(&mut self) -> Option<Tree> {
        let first = self.disjunction()?;
        let join: fn(Box<Tree>, Box<Tree>) -> Tree = if self.takes("->") {
            Tree::Right
        } else if self.takes("<-") {
            Tree::Left
        } else if self.takes("<->") {
            Tree::Both
        } else {
            return Some(first);
        };
        Some(join(Box::new(first), Box::new(self.disjunction()?)))
    }

    fn disjunction(&mut self) -> Option<Tree> {
        let mut parts = vec![self.conjunction()?];
        while self.takes("|") {
            parts.push(self.conjunction()?);
        }
        Some(if parts.len() == 1 { parts.remove(0) } else { Tree::Or(parts) })
    }

    fn conjunction(&mut self) -> Option<Tree> {
        let mut parts = vec![self.unit()?];
        while self.takes("&") {
            parts.push(self.unit()?);
        }
        Some(if parts.len() == 1 { parts.remove(0) } else { Tree::And(parts) })
    }

    /// What stands behind `~`, a quantifier or `(`: one more around each of its tokens.
    fn inside(&mut self, part: fn(&mut Reader) -> Option<Tree>) -> Option<Tree> {
        self.around += 1;
        let tree = part(self);
        self.around -= 1;
        tree
    }

    fn unit(&mut self) -> Option<Tree> {
        if self.takes("~") {
            return Some(Tree::Not(Box::new(self.inside(Reader::unit)?)));
        }
        if self.takes("@") {
            let v = self.lower()?;
            return Some(Tree::All(v, Box::new(self.inside(Reader::unit)?)));
        }
        if self.takes("?") {
            let v = self.lower()?;
            return Some(Tree::Some(v, Box::new(self.inside(Reader::unit)?)));
        }
        if self.takes("(") {
            let tree = self.inside(Reader::formula)?;
            return self.takes(")").then_some(tree);
        }
        self.literal()
    }

    fn literal(&mut self) -> Option<Tree> {
        if self.takes("#") {
            let set = self.upper()?;
            let relation = self.relation()?;
            return match self.next()? {
                Token::Number(c) => Some(Tree::Size(set, relation, c)),
                _ => None,
            };
        }
        let v = self.lower()?;
        if self.takes(":") {
            return Some(Tree::In(v, self.upper()?));
        }
        if self.takes("/") {
            return Some(Tree::NotIn(v, self.upper()?));
        }
        let relation = self.relation()?;
        Some(Tree::Compare(v, relation, self.lower()?))
    }
}

/// The set letters, the formula's tree and the most that stands around one token; nothing for a text outside the grammar.
fn parse(text: &[u8]) -> Option<(Vec<u8>, Tree, usize)> {
    let mut reader = Reader::of(text)?;
    reader.text().map(|(sets, tree)| (sets, tree, reader.deepest))
}

/// The most of `(`, `~` and quantifiers around one token, of all that is read before a text leaves the grammar, if it does.
pub fn deepest(text: &[u8]) -> usize {
    let Some(mut reader) = Reader::of(text) else { return 0 };
    reader.text();
    reader.deepest
}

/// Ground 5 below a place where these variables are bound: an undeclared set, an unbound variable, one bound again.
fn misnamed(tree: &Tree, sets: &[u8], bound: &mut Vec<u8>) -> bool {
    match tree {
        Tree::In(v, s) | Tree::NotIn(v, s) => !bound.contains(v) || !sets.contains(s),
        Tree::Compare(v, _, w) => !bound.contains(v) || !bound.contains(w),
        Tree::Size(s, _, _) => !sets.contains(s),
        Tree::All(v, f) | Tree::Some(v, f) => {
            if bound.contains(v) {
                return true;
            }
            bound.push(*v);
            let wrong = misnamed(f, sets, bound);
            bound.pop();
            wrong
        }
        _ => parts_of(tree).into_iter().any(|f| misnamed(f, sets, bound)),
    }
}

fn misdeclared(sets: &[u8]) -> bool {
    sets.len() > MOST_SETS || sets.iter().enumerate().any(|(i, s)| sets[..i].contains(s))
}

fn constant_too_large(tree: &Tree) -> bool {
    match tree {
        Tree::Size(_, _, c) => *c > 64,
        _ => parts_of(tree).into_iter().any(constant_too_large),
    }
}

/// The most quantifiers around one place.
fn quantifiers(tree: &Tree) -> usize {
    let below = parts_of(tree).into_iter().map(quantifiers).max().unwrap_or(0);
    below + usize::from(matches!(tree, Tree::All(..) | Tree::Some(..)))
}

/// An accepted text: its set letters, its own tree, the most of `(`, `~` and quantifiers around one token, its plan, and how many
/// cells the plan has.
#[derive(Debug)]
pub struct Accepted {
    pub sets: Vec<u8>,
    pub tree: Tree,
    pub around: usize,
    pub plan: Plan,
    pub cells: usize,
}

/// "Reading tries 10, then 1 to 9, each over the whole text, then 12."
pub fn read(u: u64, text: &[u8], room: usize) -> Result<Accepted, u32> {
    if !(1..=64).contains(&u) {
        return Err(10);
    }
    if text.len() > LONGEST_TEXT {
        return Err(1);
    }
    if !text.iter().all(|b| known_byte(*b)) {
        return Err(2);
    }
    let (sets, tree, around) = parse(text).ok_or(3u32)?;
    if around > MOST_AROUND {
        return Err(4);
    }
    if misdeclared(&sets) || misnamed(&tree, &sets, &mut Vec::new()) {
        return Err(5);
    }
    if constant_too_large(&tree) {
        return Err(6);
    }
    if quantifiers(&tree) > 3 {
        return Err(7);
    }
    let below = amounts(&tree, u128::from(u), 1).0;
    if below.nodes + 1 > MOST_NODES as u128 {
        return Err(8);
    }
    if below.cells + 1 > MOST_CELLS as u128 {
        return Err(9);
    }
    let plan = plan_of(u as u8, &sets, &tree);
    assert_eq!(plan.nodes.len() as u128, below.nodes + 1, "two counts of the same core");
    if room < plan.bytes() {
        return Err(12);
    }
    Ok(Accepted { sets, tree, around, plan, cells: (below.cells + 1) as usize })
}
