//! The text of a plan. Request 2026-02 of paper 02.
use super::formula::RELATIONS;
use super::plan::{Plan, ALL, AND, COMPARE, IN, NOT_IN, OR, ROOT, SIZE, SOME};
use super::table::decode;
use super::text::read;

/// "The writer names sets from A".
fn set(number: u8) -> char {
    char::from(b'A' + number)
}

/// "variables a, b, c by number"
fn variable(number: u8) -> char {
    char::from(b'a' + number)
}

/// A node without brackets round it, whatever stands above.
fn formula(plan: &Plan, node: usize) -> String {
    let n = &plan.nodes[node];
    let children = plan.children(node);
    let joined = |sign: &str, part: fn(&Plan, usize) -> String| {
        let parts: Vec<String> = children.iter().map(|child| part(plan, *child)).collect();
        parts.join(sign)
    };
    let relation = || RELATIONS[usize::from(n.relation)];
    let quantified = |sign: char| format!("{sign}{} {}", variable(plan.depth(node) as u8), unit(plan, children[0]));
    match n.kind {
        ROOT => formula(plan, children[0]),
        ALL => quantified('@'),
        SOME => quantified('?'),
        AND => joined(" & ", unit),
        // "A disjunction joins conjunctions": an "and" may stand there as it is, and no "or" is a child of "or".
        OR => joined(" | ", formula),
        IN => format!("{}:{}", variable(n.a), set(n.b)),
        NOT_IN => format!("{}/{}", variable(n.a), set(n.b)),
        COMPARE => format!("{} {} {}", variable(n.a), relation(), variable(n.b)),
        SIZE => format!("#{} {} {}", set(n.a), relation(), n.b),
        _ => unreachable!("every kind is above"),
    }
}

/// A node where the grammar has a unit: "brackets only where the grammar needs them".
fn unit(plan: &Plan, node: usize) -> String {
    match plan.nodes[node].kind {
        AND | OR => format!("({})", formula(plan, node)),
        _ => formula(plan, node),
    }
}

/// A plan's text, of any length and depth.
pub fn text_of(plan: &Plan) -> Vec<u8> {
    let sets: String = (0..plan.n as u8).map(set).collect();
    format!("[{sets}] {}", formula(plan, 0)).into_bytes()
}

/// The text of a plan table, or the first of grounds 11 and 17: "the text would meet refusal 1 or 4".
pub fn write(table: &[u8]) -> Result<Vec<u8>, u32> {
    let plan = decode(table).ok_or(11u32)?;
    let text = text_of(&plan);
    match read(plan.u as u64, &text, usize::MAX) {
        Err(1 | 4) => Err(17),
        _ => Ok(text),
    }
}

/// The length that the call answers for a text, or ground 12 where the lent text table has no room for it.
pub fn written(text: &[u8], room: usize) -> Result<usize, u32> {
    if text.len() > room {
        return Err(12);
    }
    Ok(text.len())
}
