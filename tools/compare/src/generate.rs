//! Sheets at random: lawful ones, ones with a step that is refused, and damaged ones.

use crate::random::Random;
use crate::sheet::{Sheet, Term};

/// The next sheet of the stream.
pub fn sheet(random: &mut Random) -> Vec<u8> {
    let bytes = steps(random);
    match random.below(4) {
        0 => damaged(random, bytes),
        _ => bytes,
    }
}

fn steps(random: &mut Random) -> Vec<u8> {
    let n = positions(random);
    let mut sheet = Sheet::opened(n);
    let count = match random.below(20) {
        0 => 100 + random.below(300),
        1..=4 => 20 + random.below(40),
        _ => random.below(16),
    };
    // A rare step that a layer refuses ends the sheet, so most sheets have none.
    let careless = random.once_in(3);
    for _ in 0..count {
        sheet = step(random, sheet, n.clamp(1, 12), careless);
    }
    let window = random.mask();
    sheet = sheet.only_in(n.min(12), window | 1 << random.below(12));
    sheet = sheet.ask_all(n.min(12));
    if random.once_in(40) {
        return sheet.bytes;
    }
    sheet.end()
}

fn positions(random: &mut Random) -> u8 {
    match random.below(60) {
        0 => [0, 13, 255][random.below(3)],
        1..=6 => 12,
        7..=12 => 9 + random.below(3) as u8,
        _ => 1 + random.below(8) as u8,
    }
}

fn step(random: &mut Random, sheet: Sheet, n: u8, careless: bool) -> Sheet {
    match random.below(20) {
        0..=8 => {
            let x = position(random, n, careless);
            let term = term(random, n, careless, 0);
            match &term {
                // A position bound to itself is refused; that is kept rare.
                Term::Position(p) if *p == x && !random.once_in(50) => {
                    sheet.bind(x, &Term::Constant)
                }
                _ => sheet.bind(x, &term),
            }
        }
        9..=11 => join(random, sheet, n, careless),
        12..=13 => {
            let mask = random.mask() & random.mask() & random.mask();
            sheet.forget(within(random, mask, n, careless))
        }
        14..=16 => {
            let (p, q) = (position(random, n, careless), position(random, n, careless));
            sheet.ask('p', &[p, q])
        }
        17..=18 => {
            let p = position(random, n, careless);
            sheet.ask(['g', 'f', 'l'][random.below(3)], &[p])
        }
        _ if careless => odd_step(random, sheet, n),
        _ => sheet,
    }
}

/// A step that does not fit its kind, its turn or its letter.
fn odd_step(random: &mut Random, sheet: Sheet, n: u8) -> Sheet {
    match random.below(6) {
        0 => sheet.raw(1, &[n]),
        1 => sheet.raw(random.below(24) as u16, &[0, 0]),
        2 => sheet.raw(5, &[random.mask() as u8, 0]),
        3 => sheet.raw(2, &[0, 1, 0, 17, 0, 1, 9]),
        4 => sheet.bind(0, &Term::nested(15 + random.below(4), 0)),
        _ => sheet.raw(3, &[0, 0, 0]),
    }
}

fn position(random: &mut Random, n: u8, careless: bool) -> u8 {
    if careless && random.once_in(60) {
        return [n, n + 1, 11, 12, 200][random.below(5)];
    }
    random.below(usize::from(n)) as u8
}

fn within(random: &mut Random, mask: u16, n: u8, careless: bool) -> u16 {
    if careless && random.once_in(30) {
        return mask;
    }
    mask & ((1 << n) - 1)
}

fn term(random: &mut Random, n: u8, careless: bool, depth: usize) -> Term {
    match random.below(if depth == 0 { 10 } else { 6 }) {
        0 if depth < 3 => Term::Constant,
        1..=4 => Term::Position(position(random, n, careless)),
        _ if depth > 3 => Term::Constant,
        _ => {
            let count = 1 + random.below(4);
            Term::Compound(
                (0..count)
                    .map(|_| term(random, n, careless, depth + 1))
                    .collect(),
            )
        }
    }
}

/// A join of some groups with marks that keep the three rules, or mostly so.
fn join(random: &mut Random, sheet: Sheet, n: u8, careless: bool) -> Sheet {
    let all = (1u16 << n) - 1;
    let density = [2, 8, 64, 512][random.below(4)];
    let mut groups: Vec<u16> = (1..=all).filter(|_| random.once_in(density)).collect();
    let held = groups.iter().fold(0, |held, g| held | g);
    let mut linear = all & (random.mask() | !held);
    let mut free = linear & held & random.mask();
    if random.once_in(3) {
        (free, linear) = (held, all);
    }
    if careless && random.once_in(8) {
        match random.below(6) {
            0 => free = random.mask(),
            1 => linear = random.mask(),
            2 => groups.push(random.mask()),
            3 => groups.insert(0, 0),
            4 => groups.reverse(),
            _ => linear = 0,
        }
    }
    sheet.join(free, linear, &groups)
}

/// The sheet with some of its bytes changed, dropped or added.
fn damaged(random: &mut Random, mut bytes: Vec<u8>) -> Vec<u8> {
    for _ in 0..=random.below(3) {
        if bytes.is_empty() {
            break;
        }
        let at = random.below(bytes.len());
        match random.below(7) {
            0 => bytes.truncate(at),
            1 => drop(bytes.remove(at)),
            2 => bytes.insert(at, random.mask() as u8),
            3 => bytes[at] ^= 1 << random.below(8),
            4 => bytes[at] = random.below(24) as u8,
            5 => bytes.extend_from_within(at..),
            _ => bytes[at] = random.mask() as u8,
        }
    }
    bytes
}
