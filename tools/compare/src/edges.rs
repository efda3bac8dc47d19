//! Sheets at the edges of the format.

use crate::sheet::{record, Sheet, Term};
use reference::runner::{GROUPS, LONGEST_SHEET, MARKS};

const KINDS: [u16; 16] = [0, 1, 2, 3, 4, 5, 6, 7, 8, 16, 17, 18, 19, 20, 255, 65_535];

/// Every sheet, with a word on what it tries.
pub fn sheets() -> Vec<(String, Vec<u8>)> {
    let mut all = Vec::new();
    lengths(&mut all);
    turns(&mut all);
    terms(&mut all);
    questions(&mut all);
    marks_of_joins(&mut all);
    full_lists(&mut all);
    all
}

type Sheets = Vec<(String, Vec<u8>)>;

fn lengths(all: &mut Sheets) {
    let whole = Sheet::opened(2)
        .bind(0, &Term::over(&[1, 1]))
        .ask('p', &[0, 1])
        .end();
    for length in 0..=whole.len() {
        all.push((
            format!("the first {length} bytes of a sheet"),
            whole[..length].to_vec(),
        ));
    }
    for kind in KINDS {
        for length in 0..10 {
            let payload = vec![0; length];
            let sheet = Sheet::opened(3).raw(kind, &payload).end();
            all.push((format!("kind {kind} with {length} bytes"), sheet));
            all.push((
                format!("kind {kind} first, with {length} bytes"),
                record(kind, &payload),
            ));
            let mut bind = vec![0];
            bind.extend(record(kind, &payload));
            all.push((
                format!("a term of kind {kind} with {length} bytes"),
                Sheet::opened(3).raw(2, &bind).end(),
            ));
            bind.push(0);
            all.push((
                format!("the same and one byte more, {kind} {length}"),
                Sheet::opened(3).raw(2, &bind).end(),
            ));
        }
    }
    for length in [
        LONGEST_SHEET - 1,
        LONGEST_SHEET,
        LONGEST_SHEET + 1,
        LONGEST_SHEET + 5,
    ] {
        all.push((format!("a sheet of {length} bytes"), long_sheet(length)));
        all.push((format!("{length} bytes of 0"), vec![0; length]));
    }
}

/// A lawful sheet of exactly so many bytes. An ask of one position takes 6 bytes and of two 7, so any
/// number from 42 on is a sum of the two.
fn long_sheet(length: usize) -> Vec<u8> {
    let mut sheet = Sheet::opened(1);
    while length - sheet.bytes.len() > 20_000 {
        sheet = sheet.bind(0, &Term::Compound(vec![Term::Constant; 1_000]));
    }
    let asks = length - sheet.bytes.len() - 4;
    sheet = (0..asks % 6).fold(sheet, |sheet, _| sheet.ask('p', &[0, 0]));
    while length - sheet.bytes.len() > 4 {
        sheet = sheet.ask('g', &[0]);
    }
    sheet.end()
}

fn turns(all: &mut Sheets) {
    let steps: [(&str, Vec<u8>); 6] = [
        ("open", record(1, &[2])),
        ("bind", Sheet::default().bind(0, &Term::Position(1)).bytes),
        ("join", Sheet::default().join(0, 3, &[]).bytes),
        ("forget", record(4, &[1, 0])),
        ("ask", record(5, b"g\0")),
        ("end", record(6, &[])),
    ];
    for (first, bytes) in &steps {
        all.push((format!("{first} alone"), bytes.clone()));
        for (second, more) in &steps {
            all.push((
                format!("open, {first}, {second}"),
                [&steps[0].1, bytes, more].map(Clone::clone).concat(),
            ));
            all.push((format!("{first}, {second}"), [&bytes[..], more].concat()));
        }
    }
    for n in [0, 1, 2, 11, 12, 13, 14, 128, 255] {
        all.push((format!("open {n}"), Sheet::opened(n).end()));
    }
    for extra in 1..6 {
        let mut sheet = Sheet::opened(1).end();
        sheet.extend(vec![0; extra]);
        all.push((format!("{extra} bytes after the end"), sheet));
    }
}

fn terms(all: &mut Sheets) {
    for depth in 1..=18 {
        let sheet = Sheet::opened(2)
            .bind(0, &Term::nested(depth, 1))
            .ask('p', &[0, 1]);
        all.push((format!("a position {depth} deep"), sheet.end()));
        let wide = Term::Compound(vec![
            Term::Constant,
            Term::nested(depth, 13),
            Term::Position(1),
        ]);
        all.push((
            format!("a far position {depth} deep"),
            Sheet::opened(2).bind(0, &wide).end(),
        ));
    }
    for p in [0, 1, 2, 3, 11, 12, 13, 255] {
        for x in [0, 1, 2, 3, 11, 12, 13, 255] {
            all.push((
                format!("{x} bound to position {p}"),
                Sheet::opened(3).bind(x, &Term::Position(p)).end(),
            ));
            all.push((
                format!("{x} bound to f({p})"),
                Sheet::opened(3).bind(x, &Term::over(&[p])).end(),
            ));
        }
    }
    // A compound whose arguments do not end where it ends.
    for cut in 6..16 {
        let mut inner = vec![3, 0];
        inner.extend(Term::over(&[1, 2]).bytes());
        inner.truncate(cut);
        let mut bind = vec![0];
        bind.extend(record(19, &inner));
        all.push((
            format!("a compound cut to {cut} bytes"),
            Sheet::opened(3).raw(2, &bind).end(),
        ));
    }
}

fn questions(all: &mut Sheets) {
    for letter in 0..=255u8 {
        all.push((
            format!("letter {letter} of one"),
            Sheet::opened(2).raw(5, &[letter, 0]).end(),
        ));
        all.push((
            format!("letter {letter} of two"),
            Sheet::opened(2).raw(5, &[letter, 0, 1]).end(),
        ));
    }
    for p in [0, 1, 2, 11, 12, 255] {
        for q in [0, 1, 2, 11, 12, 255] {
            all.push((
                format!("do {p} and {q} share"),
                Sheet::opened(2).ask('p', &[p, q]).end(),
            ));
        }
        all.push((
            format!("is {p} ground"),
            Sheet::opened(2).ask('g', &[p]).end(),
        ));
    }
}

fn marks_of_joins(all: &mut Sheets) {
    for free in 0..10 {
        for linear in 0..10 {
            for groups in [&[][..], &[1], &[2], &[3], &[1, 2], &[4], &[7]] {
                let sheet = Sheet::opened(3).join(free, linear, groups).ask_all(3).end();
                all.push((format!("join {free} {linear} {groups:?}"), sheet));
            }
        }
    }
    for groups in [
        &[0][..],
        &[0, 1],
        &[1, 1],
        &[2, 1],
        &[1, 2, 2],
        &[8],
        &[7, 8],
        &[65_535],
        &[1, 65_535],
    ] {
        all.push((
            format!("groups {groups:?}"),
            Sheet::opened(3).join(0, 7, groups).end(),
        ));
    }
    for mask in [0, 1, 7, 8, 9, 4_096, 65_535] {
        all.push((
            format!("forget {mask}"),
            Sheet::opened(3).forget(mask).ask_all(3).end(),
        ));
    }
}

fn full_lists(all: &mut Sheets) {
    for steps in MARKS - 2..=MARKS + 2 {
        let asks = (0..steps - 2).fold(Sheet::opened(1), |sheet, _| sheet.ask('g', &[0]));
        all.push((format!("{steps} steps"), asks.end()));
    }
    for count in GROUPS - 1..=GROUPS + 2 {
        let groups: Vec<u16> = (1..=count as u16).collect();
        let sheet = Sheet::opened(12).join(0, 0, &groups).ask_all(12);
        all.push((format!("a join of {count} groups"), sheet.end()));
    }
    // Pairs of positions are all core groups: so many of them exactly fill a keeper of 64, or do not fit.
    let pairs: Vec<u16> = (0..12)
        .flat_map(|p| (0..p).map(move |q| 1 << p | 1 << q))
        .collect();
    for count in 50..=60 {
        let mut groups = pairs[..count].to_vec();
        groups.sort_unstable();
        let sheet = Sheet::opened(12).join(0, 0xfff, &groups).ask_all(12);
        all.push((
            format!("{count} pairs and 12 single positions"),
            sheet.end(),
        ));
    }
}
