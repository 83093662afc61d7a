//! A row: the u cells of a quantifier's child where all of them are touched, or of a node below it with the same tuples.
use super::check::{ALL, AND, OR, SOME};
use super::literal::{penalty, with_digit};
use super::store::Store;
use super::walk::{At, Walk};

/// What a row's cells go into, port by port: a sum takes new minus old, a minimum the new number.
type Row = [u32; 64];

impl<S: Store> Walk<'_, S> {
    /// `row` is the place of port 0, the digits outside, and the word of a port that changes.
    pub fn row(&mut self, k: usize, row: At, sum: bool, into: &mut Row) {
        let node = self.nodes[k];
        let at = node.first as usize + row.place;
        match node.kind() {
            ALL | SOME => self.row_of_quantifiers(k, row, sum, into),
            AND => {
                let mut own = [0; 64];
                own[..self.u].copy_from_slice(self.store.row(at, self.u));
                self.children(k, row, true, &mut own);
                self.close(at, &own, sum, into);
            }
            OR => {
                let mut own = [u32::MAX; 64];
                self.children(k, row, false, &mut own);
                self.close(at, &own, sum, into);
            }
            // A literal by the row's own variable is touched at the changed ports only: in a row its number is the same all along.
            _ => self.close(at, &[penalty(&node, self.new, row.digits); 64], sum, into),
        }
    }

    fn row_of_quantifiers(&mut self, k: usize, row: At, sum: bool, into: &mut Row) {
        let outer = self.nodes[k].depth - 1;
        for (port, cell) in into[..self.u].iter_mut().enumerate() {
            let word = self.change.word_at(row.word, outer, port);
            let step = self.cell(k, At { place: row.place + port, digits: with_digit(row.digits, outer, port), word });
            *cell = if sum { step.added_to(*cell) } else { step.new.min(*cell) };
        }
    }

    fn children(&mut self, k: usize, row: At, sum: bool, own: &mut Row) {
        let nodes = self.nodes;
        let rest = self.change.rest(row.word, nodes[k].depth - 1);
        let mut c = k + 1;
        while c < nodes[k].end() {
            if nodes[c].uses & rest != 0 {
                self.row(c, row, sum, own);
            } else if sum {
                if nodes[c].uses & row.word != 0 {
                    self.changed_ports(c, row, own);
                }
            } else {
                self.partly(c, row, own);
            }
            c = nodes[c].next();
        }
    }

    /// A child of a sum that is touched at the changed ports only.
    fn changed_ports(&mut self, c: usize, row: At, own: &mut Row) {
        let (outer, low, high) = (self.nodes[c].depth - 1, self.change.low, self.change.high);
        own[low] = self.at_port(c, row, outer, low).added_to(own[low]);
        if low < high {
            own[high] = self.at_port(c, row, outer, high).added_to(own[high]);
        }
    }

    /// A child of a minimum that is touched at the changed ports only, or nowhere.
    fn partly(&mut self, c: usize, row: At, own: &mut Row) {
        let (low, high) = (self.change.low, self.change.high);
        let kept = (own[low], own[high]);
        let first = self.nodes[c].first as usize;
        least_into(own, self.store.row(first + row.place, self.u));
        if self.nodes[c].uses & row.word != 0 {
            let outer = self.nodes[c].depth - 1;
            own[low] = kept.0.min(self.at_port(c, row, outer, low).new);
            if low < high {
                own[high] = kept.1.min(self.at_port(c, row, outer, high).new);
            }
        }
    }

    /// Writes a row's new numbers and hands them on.
    fn close(&mut self, at: usize, own: &Row, sum: bool, into: &mut Row) {
        let new = &own[..self.u];
        let old = self.store.row(at, self.u);
        self.changed += old.iter().zip(new).fold(0, |count, (o, n)| count + u32::from(o != n));
        if sum {
            for ((cell, n), o) in into.iter_mut().zip(new).zip(old) {
                *cell = cell.wrapping_add(n.wrapping_sub(*o));
            }
        } else {
            least_into(into, new);
        }
        self.store.put_row(at, new);
    }
}

fn least_into(into: &mut Row, cells: &[u32]) {
    for (least, c) in into.iter_mut().zip(cells) {
        *least = (*least).min(*c);
    }
}
