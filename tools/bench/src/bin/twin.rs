//! Runs a lawful sheet from standard input: `twin table` or `twin list`.

use bench::keeper::{ListKeeper, TableKeeper};
use bench::runner::run;
use std::io::{self, Read, Write};

fn main() -> io::Result<()> {
    let mut sheet = Vec::new();
    io::stdin().take(65_536).read_to_end(&mut sheet)?;
    let text = match std::env::args().nth(1).as_deref() {
        Some("table") => run(&sheet, &mut TableKeeper::new()),
        Some("list") => run(&sheet, &mut ListKeeper::new(&mut [0; 64])),
        _ => {
            eprintln!("twin table|list < SHEET");
            std::process::exit(2);
        }
    };
    io::stdout().write_all(text.as_bytes())
}
