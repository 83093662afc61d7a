//! Every cell of a plan from scratch (Definition 5), children first, all cells of a node or of a part of it at once.
use super::check::{Node, Tables, ALL, AND, COMPARE, IN, NOT_IN, OR, ROOT, SOME};
use super::configuration::Configuration;
use super::literal::{digit, penalty, related, with_digit};

/// A node of more cells is done by the parts below one port of an outermost quantifier, so that what is read was written just before.
const LARGE: usize = 4096;

/// Literals that stand again are copied, which costs less than to make them, but for memberships of more cells than this: what these
/// would be copied from has left the nearest cache by then.
const LONG: usize = 2048;

/// The cells of each node whose tuples begin alike: the number of variables fixed, their digits, and the number of the prefix.
#[derive(Clone, Copy)]
struct Prefix {
    fixed: u8,
    digits: u32,
    place: usize,
}

struct Filler<'a> {
    tables: &'a Tables,
    of: &'a Configuration,
    powers: [usize; 4],
    /// For what a literal says, the node filled last that says so, or 0.
    last: [u16; 1 << 11],
}

pub fn all(tables: &Tables, of: &Configuration, cells: &mut [u32]) {
    let u = tables.u;
    let mut filler = Filler { tables, of, powers: [1, u, u * u, u * u * u], last: [0; 1 << 11] };
    let whole = Prefix { fixed: 0, digits: 0, place: 0 };
    // From `done` on every cell is filled; no node met before it is deeper than `depth`.
    let (mut done, mut depth) = (tables.nodes.len(), 0);
    for (k, node) in tables.nodes.iter().enumerate().rev() {
        depth = node.depth.max(depth);
        if node.depth == 0 {
            if filler.powers[usize::from(depth)] > LARGE {
                filler.below(k, done, cells);
                filler.block(k, whole, cells);
            } else {
                (k..done).rev().for_each(|i| filler.block(i, whole, cells));
            }
            (done, depth) = (k, 0);
        }
    }
}

/// What a membership or a comparison says, and under how many quantifiers.
fn said(node: &Node) -> Option<usize> {
    // Relations are 0 to 5, and that of a membership is 0.
    let [kind, relation, a, b, depth] = [node.kind(), node.relation(), node.a(), node.b(), node.depth].map(usize::from);
    let said = kind.wrapping_sub(usize::from(IN));
    (said < 3).then_some((said + relation) << 8 | b << 4 | a << 2 | depth)
}

/// The cells behind a node's own under a prefix, its children's among them: how many stand before, and the number of the prefix.
#[derive(Clone, Copy)]
struct Behind<'a> {
    cells: &'a [u32],
    before: usize,
    place: usize,
}

impl<'a> Behind<'a> {
    /// The cells of a node behind under the prefix; their number is given.
    fn row(&self, node: &Node, length: usize) -> &'a [u32] {
        &self.cells[node.first as usize + self.place * length - self.before..][..length]
    }
}

impl Filler<'_> {
    /// All cells below an outermost quantifier, up to its end, port by port.
    fn below(&mut self, i: usize, end: usize, cells: &mut [u32]) {
        for port in 0..self.tables.u {
            let prefix = Prefix { fixed: 1, digits: with_digit(0, 0, port), place: port };
            for k in (i + 1..end).rev() {
                self.block(k, prefix, cells);
            }
        }
    }

    fn length(&self, k: usize, prefix: Prefix) -> usize {
        self.powers[usize::from(self.tables.nodes[k].depth - prefix.fixed)]
    }

    /// A node's cells under a prefix, with those of all nodes behind it filled. Inlined, since it costs as much as a short row.
    #[inline(always)]
    fn block(&mut self, k: usize, prefix: Prefix, cells: &mut [u32]) {
        let length = self.length(k, prefix);
        let start = |k: usize| self.tables.nodes[k].first as usize + prefix.place * length;
        if let Some(said) = said(&self.tables.nodes[k]) {
            // One behind it has the same cells, which are filled. One before it was filled under another prefix.
            let same = usize::from(std::mem::replace(&mut self.last[said], k as u16));
            if same > k && (length <= LONG || self.tables.nodes[k].kind() == COMPARE) {
                return cells.copy_within(start(same)..start(same) + length, start(k));
            }
        }
        let (head, tail) = cells.split_at_mut(start(k) + length);
        let behind = Behind { cells: tail, before: head.len(), place: prefix.place };
        self.made(k, prefix, &mut head[start(k)..], behind);
    }

    /// The same where they are not copied. A call of its own, so that a copy does not pay for its frame.
    #[inline(never)]
    fn made(&self, k: usize, prefix: Prefix, own: &mut [u32], behind: Behind) {
        let nodes = &self.tables.nodes;
        let node = &nodes[k];
        match node.kind() {
            ROOT => own.copy_from_slice(behind.row(&nodes[k + 1], 1)),
            ALL => self.each_row(k, own, behind, |row| row.iter().fold(0, |sum, c| sum.wrapping_add(*c))),
            SOME => self.each_row(k, own, behind, |row| row.iter().fold(row[0], |low, c| least(low, *c))),
            AND => self.join(k, own, behind, u32::wrapping_add),
            // The smaller of 0 and 1 is their bitwise and.
            OR if self.over_bits(k) => self.join(k, own, behind, |a, b| a & b),
            OR => self.join(k, own, behind, least),
            IN | NOT_IN => self.membership(node, prefix, own),
            COMPARE => self.comparison(node, prefix, own),
            _ => own.fill(penalty(node, self.of, 0)),
        }
    }

    /// A quantifier's cells, each of a row of its child's. A call of its own: inlined, its loop was measured slower.
    #[inline(never)]
    fn each_row(&self, k: usize, own: &mut [u32], behind: Behind, of: impl Fn(&[u32]) -> u32) {
        let u = self.tables.u;
        let child = behind.row(&self.tables.nodes[k + 1], own.len() * u);
        own.iter_mut().zip(child.chunks_exact(u)).for_each(|(o, row)| *o = of(row));
    }

    /// The cells of an and or an or, up to four children at a time.
    fn join(&self, k: usize, own: &mut [u32], behind: Behind, by: impl Fn(u32, u32) -> u32) {
        let (mut child, end) = (k + 1, self.tables.nodes[k].end());
        match self.rows(&mut child, end, own.len(), behind) {
            ([a, b, ..], 2) => put(own, [a, b], &by),
            ([a, b, c, _], 3) => put(own, [a, b, c], &by),
            (four, _) => put(own, four, &by),
        }
        while child < end {
            match self.rows(&mut child, end, own.len(), behind) {
                ([a, ..], 1) => add(own, [a], &by),
                ([a, b, ..], 2) => add(own, [a, b], &by),
                ([a, b, c, _], 3) => add(own, [a, b, c], &by),
                (four, _) => add(own, four, &by),
            }
        }
    }

    /// The cells of the next children, at most four, and how many children these are.
    fn rows<'a>(&self, child: &mut usize, end: usize, length: usize, behind: Behind<'a>) -> ([&'a [u32]; 4], usize) {
        let (mut rows, mut count) = ([&behind.cells[..0]; 4], 0);
        while count < 4 && *child < end {
            let node = &self.tables.nodes[*child];
            rows[count] = behind.row(node, length);
            *child = node.end();
            count += 1;
        }
        (rows, count)
    }

    /// Whether every child is a literal with a penalty of 0 or 1.
    fn over_bits(&self, k: usize) -> bool {
        let below = &self.tables.nodes[k + 1..self.tables.nodes[k].end()];
        below.iter().all(|node| (IN..=COMPARE).contains(&node.kind()))
    }

    /// A membership literal. Its cells are those below one tuple of the variables before its own, again and again.
    fn membership(&self, node: &Node, prefix: Prefix, own: &mut [u32]) {
        if node.a() < prefix.fixed {
            return own.fill(penalty(node, self.of, prefix.digits));
        }
        let part = self.powers[usize::from(node.depth - node.a())];
        let (mask, inside) = (self.of.sets[usize::from(node.b())], u32::from(node.kind() == NOT_IN));
        if node.a() + 1 == node.depth {
            member_row(mask, inside, &mut own[..part]);
        } else {
            self.member_runs(mask, inside, &mut own[..part]);
        }
        repeat(own, part);
    }

    /// Ports side by side that are all members, or all none, are filled at once.
    fn member_runs(&self, mask: u64, inside: u32, own: &mut [u32]) {
        let each = own.len() / self.tables.u;
        let (mut rest, mut ports, mut held) = (own, mask, false);
        while !rest.is_empty() {
            let run = if held { ports.trailing_ones() } else { ports.trailing_zeros() };
            let (filled, others) = rest.split_at_mut((run as usize * each).min(rest.len()));
            filled.fill(if held { inside } else { 1 - inside });
            ports = ports.checked_shr(run).unwrap_or(0);
            (rest, held) = (others, !held);
        }
    }

    /// A comparison, in the same way.
    fn comparison(&self, node: &Node, prefix: Prefix, own: &mut [u32]) {
        let (outer, inner) = (node.a().min(node.b()), node.a().max(node.b()));
        if node.a() == node.b() || inner < prefix.fixed {
            return own.fill(penalty(node, self.of, prefix.digits));
        }
        if outer < prefix.fixed {
            return self.compared(node, digit(prefix.digits, outer), own);
        }
        let part = self.powers[usize::from(node.depth - outer)];
        let ports = own[..part].chunks_exact_mut(part / self.tables.u);
        ports.enumerate().for_each(|(port, below)| self.compared(node, port as u32, below));
        repeat(own, part);
    }

    /// A comparison at one port of its outer variable: ports below it, the port itself, and ports above it.
    fn compared(&self, node: &Node, outer: u32, own: &mut [u32]) {
        let inner = node.a().max(node.b());
        let part = self.powers[usize::from(node.depth - inner)];
        let each = part / self.tables.u;
        let penalty = |x: u32, y: u32| {
            let (a, b) = if node.a() == inner { (x, y) } else { (y, x) };
            u32::from(!related(node.relation(), a, b))
        };
        let at = outer as usize * each;
        own[..at].fill(penalty(0, 1));
        own[at..at + each].fill(penalty(0, 0));
        own[at + each..part].fill(penalty(1, 0));
        repeat(own, part);
    }
}

/// Joins rows, cell by cell, in one loop over all of them.
fn put<const N: usize>(own: &mut [u32], rows: [&[u32]; N], by: impl Fn(u32, u32) -> u32) {
    let rows = rows.map(|row| &row[..own.len()]);
    (0..own.len()).for_each(|i| own[i] = rows[1..].iter().fold(rows[0][i], |joined, row| by(joined, row[i])));
}

/// The same, joined to what stands there.
fn add<const N: usize>(own: &mut [u32], rows: [&[u32]; N], by: impl Fn(u32, u32) -> u32) {
    let rows = rows.map(|row| &row[..own.len()]);
    (0..own.len()).for_each(|i| own[i] = rows.iter().fold(own[i], |joined, row| by(joined, row[i])));
}

/// The smaller of two penalties. None reaches 2^31 (each of fewer than 2^20 literal cells adds at most 65), so that they may be
/// compared as signed numbers, which vectors do sooner.
fn least(a: u32, b: u32) -> u32 {
    (a as i32).min(b as i32) as u32
}

const BITS: [u32; 32] = {
    let mut bits = [1; 32];
    let mut i = 1;
    while i < 32 {
        bits[i] = 2 * bits[i - 1];
        i += 1;
    }
    bits
};

/// A row of a membership literal by the innermost variable; the two halves of the mask apart, so that it is done by vectors.
pub fn member_row(mask: u64, inside: u32, own: &mut [u32]) {
    let halves = [mask as u32, (mask >> 32) as u32];
    for (half, part) in halves.into_iter().zip(own.chunks_mut(32)) {
        part.iter_mut().zip(BITS).for_each(|(o, bit)| *o = u32::from(half & bit == 0) ^ inside);
    }
}

/// Repeats the first cells over all others, twice as many each time.
fn repeat(own: &mut [u32], first: usize) {
    let mut done = first;
    while done < own.len() {
        let more = done.min(own.len() - done);
        own.copy_within(..more, done);
        done += more;
    }
}
