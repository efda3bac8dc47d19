//! Groups as bits: the mask g is bit g % 8 of byte g / 8.

pub type Table = [u8; 512];

/// A table with the number of its positions and the two masks.
#[derive(Clone, Copy)]
pub struct Marks {
    pub positions: u8,
    pub free: u16,
    pub linear: u16,
}

pub fn holds(table: &Table, g: u16) -> bool {
    table[usize::from(g / 8)] >> (g % 8) & 1 == 1
}

pub fn put(table: &mut Table, g: u16, on: bool) {
    let bit = 1 << (g % 8);
    let byte = &mut table[usize::from(g / 8)];
    *byte = if on { *byte | bit } else { *byte & !bit };
}

/// All positions that lie in a group with one of the mask's.
pub fn reach(table: &Table, positions: u8, mask: u16) -> u16 {
    let near = (1..1u16 << positions).filter(|g| g & mask != 0 && holds(table, *g));
    near.fold(0, |all, g| all | g)
}

/// The subsets of u, u first and the empty one left out.
pub fn subsets(u: u16) -> impl Iterator<Item = u16> {
    let next = move |s: &u16| Some((*s - 1) & u).filter(|s| *s != 0);
    std::iter::successors(Some(u).filter(|u| *u != 0), next)
}

pub fn is_core(table: &Table, g: u16) -> bool {
    let has = |m: u16, p: u8| m >> p & 1 == 1;
    let covered = |p, q| {
        subsets(g)
            .skip(1)
            .any(|s| holds(table, s) && has(s, p) && has(s, q))
    };
    let open = |p, q| has(g, p) && has(g, q) && !covered(p, q);
    holds(table, g) && (0..12).any(|p| (p..12).any(|q| open(p, q)))
}
