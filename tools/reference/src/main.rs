//! Runs a sheet from standard input: `reference CAPACITY`.

use std::io::{self, Read, Write};

fn main() -> io::Result<()> {
    let capacity = std::env::args().nth(1).and_then(|word| word.parse().ok());
    let Some(capacity) = capacity else {
        eprintln!("reference CAPACITY < SHEET (4095 as the table keeper, 64 as run_list)");
        std::process::exit(2);
    };
    let mut sheet = Vec::new();
    io::stdin().take(65_536).read_to_end(&mut sheet)?;
    io::stdout().write_all(reference::runner::run(&sheet, capacity).lines().as_bytes())
}
