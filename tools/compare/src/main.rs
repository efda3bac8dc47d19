//! Runs `run_table`, `run_list`, the blind second program and the reference on the same sheets and tells
//! every difference.

mod edges;
mod generate;
mod operator;
mod programs;
mod random;
mod sheet;
mod shrink;
mod tally;

use programs::Program;
use random::Random;
use std::io;
use std::process::ExitCode;
use tally::Tally;

const USAGE: &str = "compare [SEED [SHEETS [FOLDER]]]
  SEED     the stream of generated sheets (default 1)
  SHEETS   how many are generated (default 3000)
  FOLDER   the crates, whose programs lie in NAME/out/NAME (default crates)";

struct Options {
    seed: u64,
    sheets: usize,
    folder: String,
}

fn options() -> Option<Options> {
    let words: Vec<String> = std::env::args().skip(1).collect();
    let word = |i: usize, default: &str| words.get(i).map_or(default, String::as_str).to_owned();
    Some(Options {
        seed: word(0, "1").parse().ok()?,
        sheets: word(1, "3000").parse().ok()?,
        folder: word(2, "crates"),
    })
}

fn compare(options: &Options) -> io::Result<bool> {
    let program = |name: &str, capacity| Program {
        path: format!("{}/{name}/out/{name}", options.folder).into(),
        arguments: Vec::new(),
        capacity,
    };
    let beside = std::env::current_exe()?;
    let second = |capacity: usize| Program {
        path: beside.with_file_name("second"),
        arguments: vec![capacity.to_string()],
        capacity,
    };
    let mut tally = Tally::new(vec![
        program("run_table", 4_095),
        program("run_list", 64),
        second(4_095),
        second(64),
    ]);

    println!("examples that were worked by hand, in every window");
    for example in operator::examples() {
        example.compare(&mut tally)?;
    }
    println!("edges of the format");
    for (name, sheet) in edges::sheets() {
        tally.compare(&name, &sheet)?;
    }
    println!(
        "{} generated sheets from seed {}",
        options.sheets, options.seed
    );
    let mut random = Random::new(options.seed);
    for i in 0..options.sheets {
        let sheet = generate::sheet(&mut random);
        tally.compare(&format!("generated sheet {i}"), &sheet)?;
    }
    Ok(tally.finish())
}

fn main() -> ExitCode {
    let Some(options) = options() else {
        eprintln!("{USAGE}");
        return ExitCode::from(2);
    };
    match compare(&options) {
        Ok(true) => ExitCode::SUCCESS,
        Ok(false) => ExitCode::FAILURE,
        Err(error) => {
            eprintln!("compare: {error} (run `rt run </dev/null` in crates/run_table and in crates/run_list first)");
            ExitCode::from(2)
        }
    }
}
