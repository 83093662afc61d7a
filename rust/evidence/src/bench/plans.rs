//! The six plans that are measured, as texts, with the configuration and the moves of each.
use crate::calls::Move;

/// A plan text over u ports and its sets.
pub struct Plan {
    pub name: &'static str,
    pub u: u64,
    pub text: String,
    pub sets: Vec<u64>,
    /// A move of each kind; its opposite leads back.
    pub moves: [Move; 4],
}

impl Plan {
    /// The masks to lend: the sets, and no port in test.
    pub fn masks(&self) -> Vec<u64> {
        [&self.sets[..], &[0]].concat()
    }

    /// A port that some set holds: the one that is dropped.
    pub fn held_port(&self) -> u32 {
        self.moves[1].p
    }
}

pub const KINDS: [&str; 4] = ["add", "drop", "transfer", "swap"];

pub fn plans() -> Vec<Plan> {
    vec![groups(), pairs(), triples(), sizes(), cabinet(), portfolio()]
}

/// The move that leads back.
pub fn opposite(m: Move) -> Move {
    match m.kind {
        1 => Move { kind: 2, ..m },
        2 => Move { kind: 1, ..m },
        3 => Move { s: m.t, t: m.s, ..m },
        _ => Move { p: m.q, q: m.p, ..m },
    }
}

fn letters(n: usize) -> Vec<char> {
    ('A'..='P').take(n).collect()
}

fn declared(sets: &[char]) -> String {
    format!("[{}]", sets.iter().collect::<String>())
}

/// `form` for each two sets, joined by `&`.
fn each_two(sets: &[char], form: impl Fn(char, char) -> String) -> String {
    let two = (0..sets.len()).flat_map(|i| (i + 1..sets.len()).map(move |j| (i, j)));
    two.map(|(i, j)| form(sets[i], sets[j])).collect::<Vec<_>>().join("&")
}

/// `form` for each set and the one `step` further on, joined by `&`.
fn each(sets: &[char], step: usize, form: impl Fn(char, char) -> String) -> String {
    let one = |i: usize| form(sets[i], sets[(i + step) % sets.len()]);
    (0..sets.len()).map(one).collect::<Vec<_>>().join("&")
}

fn sized(sets: &[char], size: usize) -> String {
    each(sets, 0, |a, _| format!("#{a}={size}"))
}

/// `per` ports a set, side by side from port `skip` on.
fn blocks(n: usize, per: usize, skip: usize, u: usize) -> Vec<u64> {
    (0..n).map(|s| (0..per).fold(0, |mask, i| mask | 1 << ((skip + s * per + i) % u))).collect()
}

/// An add, drop, transfer and swap over masks that these four fit.
fn moves(add: (u32, u32), drop: (u32, u32), transfer: (u32, u32, u32), swap: (u32, u32, u32)) -> [Move; 4] {
    [
        Move { kind: 1, s: add.0, t: 0, p: add.1, q: 0 },
        Move { kind: 2, s: drop.0, t: 0, p: drop.1, q: 0 },
        Move { kind: 3, s: transfer.0, t: transfer.1, p: transfer.2, q: 0 },
        Move { kind: 4, s: swap.0, t: 0, p: swap.1, q: swap.2 },
    ]
}

/// B1: 16 groups of 4 of 64 ports, pairwise disjoint.
fn groups() -> Plan {
    let sets = letters(16);
    let apart = each_two(&sets, |a, b| format!("(x/{a}|x/{b})"));
    let text = format!("{}@x({apart})&{}", declared(&sets), sized(&sets, 4));
    let mut held = blocks(16, 4, 0, 64);
    held[3] = held[4];
    held[9] ^= 1 << 2;
    Plan { name: "B1", u: 64, text, sets: held, moves: moves((2, 40), (7, 28), (5, 6, 20), (10, 41, 3)) }
}

/// B2: two quantifiers, for each set one rule about pairs of ports.
fn pairs() -> Plan {
    let sets = letters(16);
    let rules = each(&sets, 1, |a, b| format!("(x/{a}|y/{b})"));
    let text = format!("{}@x@y({rules})&{}", declared(&sets), sized(&sets, 3));
    Plan { name: "B2", u: 64, text, sets: blocks(16, 3, 5, 64), moves: moves((2, 40), (7, 27), (5, 6, 21), (10, 36, 3)) }
}

/// B3: two conjuncts under three quantifiers, one by the outermost variable and one by the innermost.
fn triples() -> Plan {
    let sets = vec![0x0F0F_0F0F, 0xFF];
    let moves = moves((0, 40), (1, 3), (0, 1, 10), (1, 2, 50));
    Plan { name: "B3", u: 64, text: "[ST]@x@y@z(x:S&z/T)".to_string(), sets, moves }
}

/// B4: a size literal in each rule, so that every pair of ports is touched.
fn sizes() -> Plan {
    let sets = letters(10);
    let rules = each(&sets, 1, |a, b| format!("(x/{a}|y/{b}|#{a}<=2)"));
    let text = format!("{}@x@y({rules})", declared(&sets));
    Plan { name: "B4", u: 64, text, sets: blocks(10, 4, 0, 64), moves: moves((2, 40), (7, 29), (5, 6, 21), (9, 36, 3)) }
}

/// B5: a cabinet of 48 ports. Groups A to H are disjoint and, with the spares I to L, hold every port; each group has a port that
/// is kept in M or N; binders ask for a partner above each port; neighbouring sets keep apart.
fn cabinet() -> Plan {
    let sets = letters(16);
    let (groups, spares) = sets[..12].split_at(8);
    let apart = each_two(groups, |a, b| format!("(x/{a}|x/{b})"));
    let cover: Vec<String> = groups.iter().map(|g| format!("x:{g}")).chain([format!("x:{}", spares[0])]).collect();
    let kept = each(groups, 0, |g, _| format!("?x(x:{g}&x:{})", if g < 'E' { 'M' } else { 'N' }));
    let binders: Vec<String> = (0..20).map(|i| format!("@x(x/{}|?y(y:{}&x<y))", sets[i % 12], sets[8 + i % 8])).collect();
    let neighbours: Vec<String> = (0..25).map(|i| format!("(x/{}|y/{})", sets[i % 16], sets[(i + 3 + i / 16) % 16])).collect();
    let text = format!(
        "{}@x({apart}&({}))&{}&#O>=1&#P>=1&{kept}&{}&@x@y({}&(x/A|y/P|x=y))",
        declared(&sets),
        cover.join("|"),
        sized(&sets, 4),
        binders.join("&"),
        neighbours.join("&"),
    );
    Plan { name: "B5", u: 48, text, sets: blocks(16, 4, 0, 48), moves: moves((2, 40), (7, 29), (5, 6, 21), (10, 41, 3)) }
}

/// B6: document 000's Table 1, 10 baskets of 3 of 8 credits with at most 2 in common. The last basket repeats the first.
fn portfolio() -> Plan {
    let sets = letters(10);
    let rules = each_two(&sets, |a, b| format!("(x>=y|y>=z|x/{a}|y/{a}|z/{a}|x/{b}|y/{b}|z/{b})"));
    let text = format!("{}@x@y@z({rules})&{}", declared(&sets), sized(&sets, 3));
    let baskets = [[0, 1, 2], [0, 1, 3], [0, 1, 4], [0, 1, 5], [2, 3, 4], [2, 3, 5], [2, 3, 6], [4, 5, 7], [4, 6, 7], [0, 1, 2]];
    let held = baskets.map(|b| b.iter().fold(0, |mask, port| mask | 1 << port)).to_vec();
    Plan { name: "B6", u: 8, text, sets: held, moves: moves((2, 7), (7, 5), (5, 6, 5), (9, 2, 7)) }
}
