//! `second CAPACITY` runs one sheet from standard input and prints its lines.

mod description;
mod groups;
mod keeper;
mod reader;
mod refusal;
mod runner;

use std::io::{self, Read, Write};
use std::process::ExitCode;

/// One byte more than the longest sheet is enough to refuse it.
const MAX_INPUT: u64 = 65_536;

/// The lines for a sheet.
fn lines(sheet: &[u8], capacity: usize) -> String {
    let (marks, fault) = runner::run(sheet, capacity);
    let mut text = String::new();
    for mark in marks {
        let answer = if mark.yes { "yes" } else { "no" };
        text += &format!("{} {} {}\n", mark.place, mark.kind.name(), answer);
    }
    if let Some(fault) = fault {
        text += &format!(
            "refused {} at {} step {} {}\n",
            fault.refusal as u8,
            fault.place,
            fault.step,
            fault.layer.name()
        );
    }
    text
}

fn main() -> ExitCode {
    let argument = std::env::args().nth(1);
    let Some(capacity) = argument.and_then(|a| a.parse().ok()) else {
        eprintln!("usage: second CAPACITY");
        return ExitCode::from(2);
    };
    let mut sheet = Vec::new();
    if let Err(error) = io::stdin().take(MAX_INPUT).read_to_end(&mut sheet) {
        eprintln!("second: {error}");
        return ExitCode::from(2);
    }
    let text = lines(&sheet, capacity);
    match io::stdout().write_all(text.as_bytes()) {
        Ok(()) => ExitCode::SUCCESS,
        Err(_) => ExitCode::from(2),
    }
}

#[cfg(test)]
mod tests {
    use super::lines;

    const OPEN_2: [u8; 5] = [1, 0, 1, 0, 2];
    const END: [u8; 4] = [0, 0, 6, 0];

    fn sheet(records: &[&[u8]]) -> Vec<u8> {
        records.concat()
    }

    #[test]
    fn example_of_the_page() {
        let bind = [6, 0, 2, 0, 0, 1, 0, 0x11, 0, 1];
        let pair = [3, 0, 5, 0, 0x70, 0, 1];
        let ground = [2, 0, 5, 0, 0x67, 0];
        let bytes = sheet(&[&OPEN_2, &bind, &pair, &ground, &END]);
        let want = "0 open yes\n5 bind yes\n15 ask yes\n22 ask no\n28 end yes\n";
        assert_eq!(lines(&bytes, 64), want);
    }

    #[test]
    fn bounds_of_a_sheet() {
        let long = vec![0; 65_536];
        assert_eq!(lines(&long, 64), "refused 3 at 0 step 0 reader\n");
        assert_eq!(lines(&[], 64), "refused 1 at 0 step 0 reader\n");
        let no_end = "0 open yes\nrefused 1 at 5 step 1 reader\n";
        assert_eq!(lines(&OPEN_2, 64), no_end);
        let after_end = lines(&sheet(&[&OPEN_2, &END, &[0]]), 64);
        assert!(after_end.ends_with("refused 4 at 9 step 2 runner\n"));
    }

    #[test]
    fn full_list_of_marks() {
        let forget = [2, 0, 4, 0, 0, 0].repeat(4_095);
        let text = lines(&sheet(&[&OPEN_2, &forget, &END]), 64);
        assert_eq!(text.lines().count(), 4_097);
        assert!(text.ends_with("refused 13 at 24575 step 4096 runner\n"));
    }

    /// A constant inside compounds, `depth` of them.
    fn nested(depth: usize) -> Vec<u8> {
        let mut term = vec![2, 0, 18, 0, 0, 0];
        for _ in 0..depth {
            let length = term.len() as u8 + 2;
            term.splice(0..0, [length, 0, 19, 0, 0, 0]);
        }
        let mut bind = vec![term.len() as u8 + 1, 0, 2, 0, 0];
        bind.extend(term);
        bind
    }

    #[test]
    fn compounds_nest_sixteen_deep() {
        let text = lines(&sheet(&[&OPEN_2, &nested(16), &END]), 64);
        assert!(text.contains("5 bind yes\n"));
        let text = lines(&sheet(&[&OPEN_2, &nested(17), &END]), 64);
        assert_eq!(text, "0 open yes\nrefused 8 at 106 step 1 reader\n");
    }
}
