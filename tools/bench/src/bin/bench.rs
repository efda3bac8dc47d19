//! Times `run_table` and `run_list` against a twin in Rust and against the reference, on the same sheets.

use std::fs::File;
use std::io;
use std::path::{Path, PathBuf};
use std::process::{Command, ExitCode, Stdio};

/// How often each program runs each sheet; the fastest counts.
const ROUNDS: usize = 7;

fn record(kind: u16, payload: &[u8]) -> Vec<u8> {
    let mut bytes = (payload.len() as u16).to_le_bytes().to_vec();
    bytes.extend(kind.to_le_bytes());
    bytes.extend(payload);
    bytes
}

fn compound(args: &[u8]) -> Vec<u8> {
    let mut payload = vec![3, 0];
    args.iter().for_each(|p| payload.extend(record(17, &[*p])));
    record(19, &payload)
}

fn bind(x: u8, term: &[u8]) -> Vec<u8> {
    record(2, &[&[x], term].concat())
}

fn join(free: u16, linear: u16, groups: &[u16]) -> Vec<u8> {
    let words = [free, linear].into_iter().chain(groups.iter().copied());
    record(3, &words.flat_map(u16::to_le_bytes).collect::<Vec<u8>>())
}

/// A round of steps over 12 positions, as often as a sheet has room for.
fn rounds(steps: &[Vec<u8>]) -> Vec<u8> {
    let mut sheet = record(1, &[12]);
    let round = steps.concat();
    while sheet.len() + round.len() < 60_000 {
        sheet.extend(&round);
    }
    sheet.extend(record(6, &[]));
    sheet
}

/// Rules over 8 positions: terms of two or three positions, questions, and a forget now and then.
fn ordinary() -> Vec<u8> {
    let mut sheet = record(1, &[8]);
    for i in 0..500u16 {
        let [p, q, r] = [i % 8, (i * 5 + 3) % 8, (i * 3 + 1) % 8].map(|p| p as u8);
        sheet.extend(bind(
            p,
            &compound(&[(p + 1 + q % 7) % 8, (p + 1 + r % 7) % 8]),
        ));
        for ask in [[b'p', p, q], [b'p', q, r], [b'p', p, r]] {
            sheet.extend(record(5, &ask));
        }
        sheet.extend(record(5, &[b'g', r]));
        if i % 2 == 1 {
            let mask: u16 = 1 << p | 1 << q | 1 << (i / 2 % 8);
            sheet.extend(record(4, &mask.to_le_bytes()));
        }
        if i % 16 == 0 {
            sheet.extend(bind(r, &record(18, &[1, 0])));
        }
    }
    sheet.extend(record(6, &[]));
    sheet
}

fn sheets() -> Vec<(&'static str, Vec<u8>)> {
    let groups = |test: fn(&u16) -> bool| (1..4_096).filter(test).collect::<Vec<u16>>();
    let every = groups(|_| true);
    // All groups that hold three positions: with each position alone a core of 58, which fits 64.
    let around = groups(|g| g & 7 == 7);
    // Every pair is tried and none is found: position 1 is made ground before 0 is bound to it.
    let apart = groups(|g| g & 3 == 1);
    let (position, constant) = (|p: u8| record(17, &[p]), record(18, &[1, 0]));
    let terms = |marks, groups: &[u16]| {
        rounds(&[
            join(marks, marks, groups),
            bind(3, &compound(&[4, 4])),
            bind(5, &compound(&[6, 7])),
        ])
    };
    let positions = |marks, groups: &[u16]| {
        rounds(&[
            join(marks, marks, groups),
            bind(3, &position(4)),
            bind(5, &position(6)),
        ])
    };
    let onto_ground = [
        record(4, &[1, 0]),
        join(1, 0xfff, &apart),
        bind(1, &constant),
        bind(0, &position(1)),
    ];
    vec![
        ("dense, n = 12, nothing linear", terms(0, &around)),
        ("dense, n = 12, all free", positions(0xfff, &around)),
        ("every group, n = 12, nothing linear", terms(0, &every)),
        ("every group, n = 12, all free", positions(0xfff, &every)),
        (
            "dense, n = 12, a free position bound to a ground one",
            rounds(&onto_ground),
        ),
        ("ordinary, n = 8", ordinary()),
    ]
}

/// What a program cost: milliseconds of processor time, and the most memory in KB.
#[derive(Clone, Copy)]
struct Cost {
    milliseconds: f64,
    kilobytes: i64,
}

#[repr(C)]
struct Usage {
    user: [i64; 2],
    system: [i64; 2],
    most_memory: i64,
    others: [i64; 13],
}

extern "C" {
    fn wait4(pid: i32, status: *mut i32, options: i32, usage: *mut Usage) -> i32;
}

/// Runs the program on the sheet once; what it prints goes to the file.
fn run(program: &[String], sheet: &Path, output: &Path) -> io::Result<Cost> {
    let child = Command::new(&program[0])
        .args(&program[1..])
        .stdin(Stdio::from(File::open(sheet)?))
        .stdout(Stdio::from(File::create(output)?))
        .spawn()?;
    let mut status = 0;
    let mut usage = Usage {
        user: [0; 2],
        system: [0; 2],
        most_memory: 0,
        others: [0; 13],
    };
    // SAFETY: both pointers are to live values of the layout that wait4 has on 64-bit Linux.
    let waited = unsafe { wait4(child.id() as i32, &mut status, 0, &mut usage) };
    if waited < 0 || status != 0 {
        return Err(io::Error::other(format!(
            "{} ended with status {status}",
            program[0]
        )));
    }
    let seconds = |t: [i64; 2]| t[0] as f64 + t[1] as f64 / 1e6;
    Ok(Cost {
        milliseconds: 1e3 * (seconds(usage.user) + seconds(usage.system)),
        kilobytes: usage.most_memory,
    })
}

fn main() -> ExitCode {
    let folder = std::env::args()
        .nth(1)
        .unwrap_or_else(|| "crates".into());
    match compare(&folder) {
        Ok(()) => ExitCode::SUCCESS,
        Err(error) => {
            eprintln!("bench: {error} (run `rt run </dev/null` in crates/run_table and in crates/run_list first)");
            ExitCode::FAILURE
        }
    }
}

fn compare(folder: &str) -> io::Result<()> {
    let beside = std::env::current_exe()?;
    let tool = |name: &str| beside.with_file_name(name).display().to_string();
    let scratch = std::env::temp_dir().join(format!("bench-{}", std::process::id()));
    std::fs::create_dir_all(&scratch)?;
    for (name, bytes) in sheets() {
        println!("{name}: a sheet of {} bytes", bytes.len());
        let sheet = scratch.join("sheet");
        std::fs::write(&sheet, &bytes)?;
        for (keeper, capacity) in [("table", "4095"), ("list", "64")] {
            let ours = vec![format!("{folder}/run_{keeper}/out/run_{keeper}")];
            let twin = vec![tool("twin"), keeper.into()];
            let reference = vec![tool("reference"), capacity.into()];
            measure(&scratch, &sheet, &[ours, twin, reference])?;
        }
    }
    std::fs::remove_dir_all(&scratch)
}

/// Runs the three programs in turn and prints what they cost, with ratios to the second and the third.
fn measure(scratch: &Path, sheet: &Path, programs: &[Vec<String>; 3]) -> io::Result<()> {
    let outputs: [PathBuf; 3] = ["ours", "twin", "reference"].map(|name| scratch.join(name));
    let mut best = [Cost {
        milliseconds: f64::MAX,
        kilobytes: 0,
    }; 3];
    for _ in 0..ROUNDS {
        for (i, program) in programs.iter().enumerate() {
            let cost = run(program, sheet, &outputs[i])?;
            best[i].milliseconds = best[i].milliseconds.min(cost.milliseconds);
            best[i].kilobytes = best[i].kilobytes.max(cost.kilobytes);
        }
    }
    let [ours, twin, reference] = best;
    let printed = std::fs::read_to_string(&outputs[0])?;
    let same = std::fs::read_to_string(&outputs[2])? == printed;
    let refused = printed
        .lines()
        .last()
        .is_some_and(|line| line.starts_with("refused"));
    println!(
        "  {}: {:.1} ms, {} KB; twin {:.1} ms ({:.2} times); reference {:.1} ms ({:.2} times); {} lines{}{}",
        programs[0][0],
        ours.milliseconds,
        ours.kilobytes,
        twin.milliseconds,
        ours.milliseconds / twin.milliseconds,
        reference.milliseconds,
        ours.milliseconds / reference.milliseconds,
        printed.lines().count(),
        if refused { ", then refused" } else { "" },
        if same { "" } else { ", NOT THE SAME LINES" },
    );
    Ok(())
}
