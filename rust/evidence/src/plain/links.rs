//! Links over the children of sums that a change does not touch, so that a walk which meets a sum often does not go through them.
use super::check::{Node, AND};

/// Links the sums of at least this depth that a word touches. A minimum reads all its children.
pub fn link(nodes: &mut [Node], word: u64, depth: u8) {
    if nodes[0].uses & word != 0 {
        link_below(nodes, 0, word, depth);
    }
}

/// At and below a touched node. The first child of a sum stays the first, touched or not.
fn link_below(nodes: &mut [Node], i: usize, word: u64, depth: u8) {
    let (sum, end) = (nodes[i].kind() == AND && nodes[i].depth >= depth, nodes[i].end());
    let (mut last, mut k) = (i + 1, i + 1);
    while k < end {
        let behind = nodes[k].end();
        if nodes[k].uses & word != 0 {
            if sum && k > last {
                nodes[last].set_next(k);
                last = k;
            }
            if k + 1 < behind {
                link_below(nodes, k, word, depth);
            }
        }
        k = behind;
    }
    if sum {
        nodes[last].set_next(end);
    }
}
