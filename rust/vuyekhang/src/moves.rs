//! Moves and sums of kinds, as a caller gives them.
use std::ops::BitOr;

/// A move, laid out as `vk_move_record`.
///
/// Any value may stand in any field. Whether it is known is for the engine to say: an unknown kind, set or port, or a field that
/// its kind does not use and that is not 0, is [`Refusal::UnknownMove`](crate::Refusal::UnknownMove).
///
/// Moves are ordered by kind, s, t, p, q, smaller first.
///
/// ```
/// use vuyekhang::Move;
///
/// assert_eq!(Move::transfer(0, 2, 5), Move { kind: Move::TRANSFER, s: 0, t: 2, p: 5, q: 0 });
/// assert!(Move::drop(3, 7) < Move::transfer(0, 2, 5));
/// ```
#[repr(C)]
#[derive(Debug, Clone, Copy, PartialEq, Eq, PartialOrd, Ord, Hash, Default)]
pub struct Move {
    /// One of [`Move::ADD`], [`Move::DROP`], [`Move::TRANSFER`], [`Move::SWAP`].
    pub kind: u32,
    /// The set that changes; of a transfer, the one that the port leaves.
    pub s: u32,
    /// Of a transfer, the set that the port enters.
    pub t: u32,
    /// The port that enters or leaves; of a swap, the one that leaves.
    pub p: u32,
    /// Of a swap, the port that enters.
    pub q: u32,
}

impl Move {
    /// Kind 1: port p, which is not in set s, enters it.
    pub const ADD: u32 = 1;
    /// Kind 2: port p, which is in set s, leaves it.
    pub const DROP: u32 = 2;
    /// Kind 3: port p, which is in set s and not in another set t, leaves s and enters t.
    pub const TRANSFER: u32 = 3;
    /// Kind 4: port p, which is in set s, and port q, which is not, change places.
    pub const SWAP: u32 = 4;

    /// Adds a port to a set.
    pub const fn add(set: u32, port: u32) -> Move {
        Move { kind: Move::ADD, s: set, t: 0, p: port, q: 0 }
    }

    /// Drops a port from a set.
    pub const fn drop(set: u32, port: u32) -> Move {
        Move { kind: Move::DROP, s: set, t: 0, p: port, q: 0 }
    }

    /// Takes a port out of one set and puts it into another.
    pub const fn transfer(from: u32, to: u32, port: u32) -> Move {
        Move { kind: Move::TRANSFER, s: from, t: to, p: port, q: 0 }
    }

    /// Puts a port in place of another in a set.
    pub const fn swap(set: u32, leaves: u32, enters: u32) -> Move {
        Move { kind: Move::SWAP, s: set, t: 0, p: leaves, q: enters }
    }
}

/// Kinds of moves, as a sum. Any value may be given; 0 and those above 15 are
/// [`Refusal::UnknownMove`](crate::Refusal::UnknownMove).
///
/// ```
/// use vuyekhang::Kinds;
///
/// assert_eq!(Kinds::ADD | Kinds::SWAP, Kinds(9));
/// ```
#[derive(Debug, Clone, Copy, PartialEq, Eq, Hash)]
pub struct Kinds(pub u32);

impl Kinds {
    /// Adds alone.
    pub const ADD: Kinds = Kinds(1);
    /// Drops alone.
    pub const DROP: Kinds = Kinds(2);
    /// Transfers alone.
    pub const TRANSFER: Kinds = Kinds(4);
    /// Swaps alone.
    pub const SWAP: Kinds = Kinds(8);
    /// Every kind.
    pub const ALL: Kinds = Kinds(15);
}

impl BitOr for Kinds {
    type Output = Kinds;

    fn bitor(self, other: Kinds) -> Kinds {
        Kinds(self.0 | other.0)
    }
}
