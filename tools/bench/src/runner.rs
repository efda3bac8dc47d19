//! Runs lawful sheets: a step that cannot be read or kept ends the run.

use crate::keeper::Keeper;
use crate::rule;
use crate::table::{put, Marks, Table};
use reference::keeper::Question;
use reference::reader::{Record, Step};
use std::fmt::Write;

/// The printed lines of a sheet, up to the first refusal.
pub fn run(sheet: &[u8], keeper: &mut impl Keeper) -> String {
    let mut scratch: Table = [0; 512];
    let mut text = String::new();
    let mut at = 0;
    while at < sheet.len() {
        let Ok(record) = Record::read(sheet, at, sheet.len()) else {
            break;
        };
        let Ok(step) = record.step(sheet) else { break };
        let kind = ["open", "bind", "join", "forget", "ask", "end"][usize::from(record.kind) - 1];
        let Some(answer) = serve(keeper, step, &mut scratch) else {
            break;
        };
        let answer = if answer { "yes" } else { "no" };
        let _ = writeln!(text, "{at} {kind} {answer}");
        at = record.end;
    }
    text
}

fn serve(keeper: &mut impl Keeper, step: Step, scratch: &mut Table) -> Option<bool> {
    let marks = match step {
        Step::Open(n) => opened(n, scratch),
        Step::Bind(x, term) => {
            let marks = keeper.load(scratch);
            rule::bind(scratch, marks, x, &term)
        }
        Step::Join(free, linear, groups) => {
            let marks = keeper.load(scratch);
            groups.iter().for_each(|g| put(scratch, *g, true));
            Marks {
                free: marks.free & free,
                linear: marks.linear & linear,
                ..marks
            }
        }
        Step::Forget(mask) => {
            let marks = keeper.load(scratch);
            rule::forget(scratch, marks, mask)
        }
        Step::Ask(question) => return Some(ask(keeper, question)),
        Step::End => return Some(true),
    };
    keeper.store(scratch, marks).then_some(true)
}

fn opened(n: usize, table: &mut Table) -> Marks {
    table.fill(0);
    (0..n).for_each(|p| put(table, 1 << p, true));
    let all = (1 << n) - 1;
    Marks {
        positions: n as u8,
        free: all,
        linear: all,
    }
}

fn ask(keeper: &impl Keeper, question: Question) -> bool {
    match question {
        Question::Ground(p) => !keeper.share(p, p),
        Question::Free(p) => keeper.marks().free >> p & 1 == 1,
        Question::Linear(p) => keeper.marks().linear >> p & 1 == 1,
        Question::Pair(p, q) => keeper.share(p, q),
    }
}
