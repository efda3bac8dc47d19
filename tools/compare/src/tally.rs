//! What was seen: sheets compared, refusals by number and layer, differences.

use crate::programs::Program;
use crate::shrink::shrink;
use std::collections::BTreeMap;
use std::io;
use std::time::{Duration, Instant};

/// Every refusal that a sheet can meet, by its number.
const ALL_REFUSALS: std::ops::RangeInclusive<u8> = 1..=13;

pub struct Tally {
    programs: Vec<Program>,
    sheets: usize,
    accepted: usize,
    refusals: BTreeMap<(u8, String), usize>,
    differences: usize,
    shown: Instant,
}

impl Tally {
    pub fn new(programs: Vec<Program>) -> Tally {
        Tally {
            programs,
            sheets: 0,
            accepted: 0,
            refusals: BTreeMap::new(),
            differences: 0,
            shown: Instant::now(),
        }
    }

    /// Runs a sheet on all programs and compares what they print with the reference.
    pub fn compare(&mut self, name: &str, sheet: &[u8]) -> io::Result<()> {
        self.sheets += 1;
        for i in 0..self.programs.len() {
            let program = &self.programs[i];
            let outcome = reference::runner::run(sheet, program.capacity);
            let printed = program.run(sheet)?;
            if printed != outcome.lines() {
                report(program, name, sheet)?;
                self.differences += 1;
            }
            match outcome.fault {
                None => self.accepted += 1,
                Some(fault) => {
                    let seen = (fault.number, fault.layer.to_string());
                    *self.refusals.entry(seen).or_default() += 1;
                }
            }
        }
        self.show_progress();
        Ok(())
    }

    /// An answer that was worked by hand differs from what is printed.
    pub fn expect(&mut self, name: &str, holds: bool) {
        if !holds {
            self.differences += 1;
            println!("DIFFERENCE: {name} is not as it was worked by hand");
        }
    }

    fn show_progress(&mut self) {
        if self.shown.elapsed() > Duration::from_secs(2) {
            self.shown = Instant::now();
            println!(
                "{} sheets compared, {} differences so far",
                self.sheets, self.differences
            );
        }
    }

    /// Prints the sums. True when nothing differs and every refusal was met.
    pub fn finish(&self) -> bool {
        println!(
            "{} sheets compared on {} programs",
            self.sheets,
            self.programs.len()
        );
        println!("{} runs ended without a refusal", self.accepted);
        for ((number, layer), count) in &self.refusals {
            println!("{count} runs ended in refusal {number} by the {layer}");
        }
        let missing: Vec<u8> = ALL_REFUSALS
            .filter(|number| !self.refusals.keys().any(|(seen, _)| seen == number))
            .collect();
        if !missing.is_empty() {
            println!("never met: refusals {missing:?}");
        }
        println!("{} differences", self.differences);
        self.differences == 0 && missing.is_empty()
    }
}

fn report(program: &Program, name: &str, sheet: &[u8]) -> io::Result<()> {
    let path = program.path.display();
    println!(
        "DIFFERENCE: {path} on {name} ({} bytes), shrinking it",
        sheet.len()
    );
    let small = shrink(program, sheet)?;
    let hex: Vec<String> = small.iter().map(|b| format!("{b:02x}")).collect();
    println!("sheet of {} bytes: {}", small.len(), hex.join(" "));
    println!("{path} prints:\n{}", program.run(&small)?);
    println!("the reference prints:\n{}", program.expected(&small));
    Ok(())
}
