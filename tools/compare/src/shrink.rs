//! Making a sheet on which two programs differ as small as may be.

use crate::programs::Program;
use std::io;

/// A sheet, no longer than the given one, on which the program still differs.
pub fn shrink(program: &Program, sheet: &[u8]) -> io::Result<Vec<u8>> {
    let mut small = sheet.to_vec();
    loop {
        let before = small.clone();
        small = without_records(program, small)?;
        small = without_bytes(program, small)?;
        small = with_smaller_bytes(program, small)?;
        if small == before {
            return Ok(small);
        }
    }
}

/// Where the records of a sheet begin, as far as their lengths lead.
fn places(sheet: &[u8]) -> Vec<usize> {
    let mut places = vec![0];
    let mut at = 0;
    while at + 4 <= sheet.len() {
        at += 4 + usize::from(u16::from_le_bytes([sheet[at], sheet[at + 1]]));
        places.push(at.min(sheet.len()));
    }
    places
}

/// Drops runs of records, long runs first.
fn without_records(program: &Program, mut sheet: Vec<u8>) -> io::Result<Vec<u8>> {
    let mut run = places(&sheet).len();
    while run > 0 {
        let mut first = 0;
        while first + run < places(&sheet).len() {
            let places = places(&sheet);
            let shorter = [&sheet[..places[first]], &sheet[places[first + run]..]].concat();
            if shorter.len() < sheet.len() && program.differs(&shorter)? {
                sheet = shorter;
            } else {
                first += run;
            }
        }
        run /= 2;
    }
    Ok(sheet)
}

/// Drops single bytes, of a sheet that is short enough for it.
fn without_bytes(program: &Program, mut sheet: Vec<u8>) -> io::Result<Vec<u8>> {
    if sheet.len() > 2_000 {
        return Ok(sheet);
    }
    let mut at = 0;
    while at < sheet.len() {
        let mut shorter = sheet.clone();
        shorter.remove(at);
        if program.differs(&shorter)? {
            sheet = shorter;
        } else {
            at += 1;
        }
    }
    Ok(sheet)
}

fn with_smaller_bytes(program: &Program, mut sheet: Vec<u8>) -> io::Result<Vec<u8>> {
    if sheet.len() > 500 {
        return Ok(sheet);
    }
    for at in 0..sheet.len() {
        for value in [0, 1, sheet[at] / 2] {
            let mut smaller = sheet.clone();
            smaller[at] = value;
            if value < sheet[at] && program.differs(&smaller)? {
                sheet = smaller;
                break;
            }
        }
    }
    Ok(sheet)
}
