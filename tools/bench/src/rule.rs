//! The bind rule and forget, in place on a table.

use crate::table::{holds, put, reach, subsets, Marks, Table};
use reference::description::Term;

/// The union of the groups inside u that meet both masks.
fn hull(table: &Table, a: u16, b: u16, u: u16) -> u16 {
    let meeting = subsets(u).filter(|s| s & a != 0 && s & b != 0 && holds(table, *s));
    meeting.fold(0, |all, s| all | s)
}

/// Whether some group inside u that meets a makes u with the base, which lies in u.
fn filled(table: &Table, a: u16, base: u16, u: u16) -> bool {
    let missing = u & !base;
    let makes = |s: u16| s & a != 0 && holds(table, s);
    subsets(base).any(|s| makes(missing | s)) || makes(missing)
}

fn filled_both(table: &Table, a: u16, b: u16, base: u16, u: u16) -> bool {
    subsets(u).any(|s| s & a != 0 && holds(table, s) && filled(table, b, base | s, u))
}

fn closed_with_one(table: &Table, a: u16, b: u16, u: u16) -> bool {
    let united = hull(table, a, a, u);
    united != 0 && filled(table, b, united, u)
}

fn both_closed(table: &Table, a: u16, b: u16, u: u16) -> bool {
    let (left, right) = (hull(table, a, a, u), hull(table, b, b, u));
    left != 0 && right != 0 && left | right == u
}

fn is_linear(table: &Table, marks: Marks, term: &Term) -> bool {
    (0..marks.positions)
        .filter(|p| term.held >> p & 1 == 1)
        .all(|p| {
            let alone = 1 << p;
            let near = reach(table, marks.positions, alone);
            let once = marks.linear & alone != 0 && term.repeated & alone == 0;
            near == 0 || (once && near & !alone & term.held == 0)
        })
}

pub fn bind(table: &mut Table, marks: Marks, x: usize, term: &Term) -> Marks {
    let (bound, held) = (1 << x, term.held);
    let x_free = marks.free & bound != 0;
    let x_linear = marks.linear & bound != 0;
    let t_free = term.bare && marks.free & held != 0;
    let t_linear = is_linear(table, marks, term);
    let in_x = reach(table, marks.positions, bound);
    let in_t = reach(table, marks.positions, held);
    let lost = |loses_x: bool, loses_t: bool| {
        (if loses_x { in_x } else { 0 }) | (if loses_t { in_t } else { 0 })
    };
    let free = marks.free & !lost(!t_free, !x_free);
    let linear = marks.linear & !(in_x & in_t) & !lost(!t_linear, !x_linear);

    for u in (1..1u16 << marks.positions).rev() {
        let on = match (u & bound != 0, u & held != 0) {
            (true, true) => match (x_free || t_free, x_linear, t_linear) {
                (true, _, _) => filled_both(table, bound, held, 0, u),
                (_, true, true) => filled_both(table, bound, held, hull(table, bound, held, u), u),
                (_, true, false) => closed_with_one(table, bound, held, u),
                (_, false, true) => closed_with_one(table, held, bound, u),
                (_, false, false) => both_closed(table, bound, held, u),
            },
            (false, false) => holds(table, u),
            _ => false,
        };
        put(table, u, on);
    }
    let all = (1 << marks.positions) - 1;
    let ground = all & !reach(table, marks.positions, all);
    Marks {
        free,
        linear: linear | free | ground,
        ..marks
    }
}

pub fn forget(table: &mut Table, marks: Marks, mask: u16) -> Marks {
    for u in 1..1u16 << marks.positions {
        let on = match u & mask {
            0 => holds(table, u) || subsets(mask).any(|s| holds(table, u | s)),
            _ => u.count_ones() == 1,
        };
        put(table, u, on);
    }
    Marks {
        free: marks.free | mask,
        linear: marks.linear | mask,
        ..marks
    }
}
