//! Scripts that do not depend on a seed: those of `limits`, every malformed line
//! document 01 names, over-long lines, last lines and input across buffers.

use crate::frames::{hexadecimal, listing, run, Set};
use crate::limits;
use crate::malformed::OTHERS;
use crate::scripts::{Lines, Script};

pub struct Named {
    pub name: &'static str,
    pub script: Script,
}

/// All of them, in the order in which they are compared.
pub fn all() -> Vec<Named> {
    let mut scripts = vec![
        named("empty input", Vec::new()),
        named("cases", limits::cases()),
        named("tasks and units", limits::tasks_and_units()),
        named(
            "requirements and periods",
            limits::requirements_and_periods(),
        ),
        named("multiple and load", limits::multiple_and_load()),
        named("order of refusals", limits::order_of_refusals()),
        named("runs", limits::runs()),
        named("long strings", limits::long_strings()),
        named("ties", limits::ties()),
        named("malformed before a set", before_a_set()),
        named("malformed in a run", in_a_run(malformed_lines())),
        named("over-long lines", in_a_run(over_long())),
        named("many lines", many_lines()),
    ];
    scripts.extend(last_lines());
    scripts.extend(across_buffers());
    scripts
}

fn named(name: &'static str, lines: Lines) -> Named {
    let script = Script::new(lines);
    Named { name, script }
}

/// Each malformed line document 01 names, and each character that is no digit.
fn malformed_lines() -> Lines {
    let mut lines: Lines = vec![Vec::new()];
    let digits = b"0123456789ABCDEF";
    let others = (0..=255).filter(|byte| *byte != b'\n' && !digits.contains(byte));
    lines.extend(others.map(|other| vec![b'0', other]));
    for other in OTHERS {
        for place in 0..6 {
            let mut line = run(1);
            line[place] = other;
            lines.push(line);
        }
        lines.extend([
            [&[other], &b"03"[..]].concat(),
            [&b"03"[..], &[other]].concat(),
        ]);
    }
    lines.extend(
        (0..=255)
            .filter(|kind| !(1..=3).contains(kind))
            .map(|kind| hexadecimal(&[kind])),
    );
    lines.extend(wrong_lengths());
    lines
}

/// Each kind with digits and bytes too few and too many.
fn wrong_lengths() -> Lines {
    let mut lines = Vec::new();
    for good in [
        run(1),
        listing(),
        Set::new(1, &[(1, 2)]).line(),
        Set::new(1, &[]).line(),
    ] {
        lines.extend((1..good.len()).map(|length| good[..length].to_vec()));
        for more in 1..=10 {
            lines.push([&good[..], &vec![b'0'; more]].concat());
        }
    }
    for n in [2, 63, 64] {
        let line = Set::new(32, &vec![(1, 2); n]).line();
        lines.extend((1..=9).map(|less| line[..line.len() - less].to_vec()));
    }
    // A listing's first two digits are a listing again.
    lines.retain(|line| line != b"03" && line != b"010100");
    lines
}

fn before_a_set() -> Lines {
    let mut lines = vec![run(0), run(1), run(1_025), listing()];
    // A refused set is no accepted set.
    lines.extend([
        Set::new(1, &[(2, 2)]).line(),
        run(0),
        run(1),
        run(65_535),
        listing(),
    ]);
    lines.extend(malformed_lines());
    lines.extend([run(0), run(1), listing()]);
    lines
}

/// Each line in the middle of a run, which must go on as if it were not there.
fn in_a_run(lines: Lines) -> Lines {
    let mut all = vec![Set::new(1, &[(1, 2), (1, 3)]).line()];
    for line in lines {
        all.extend([line, run(1), listing()]);
    }
    all
}

/// Around the limit of digits and the sizes of buffers, up to several megabytes.
#[rustfmt::skip]
const LONG: [usize; 23] = [
    518, 519, 520, 521, 522, 526, 1_000, 1_023, 1_024, 1_025, 1_036, 4_095,
    4_096, 4_097, 8_191, 8_192, 8_193, 65_535, 65_536, 65_537, 200_000, 3 << 20, (5 << 20) + 1,
];

fn over_long() -> Lines {
    let starts = [
        &b"03"[..],
        b"020001",
        b"0",
        b"0101020001000200010003",
        b"\r",
    ];
    let long = |size: usize, start: &[u8]| {
        let mut line = start.to_vec();
        line.resize(size, b'0');
        line
    };
    let mut lines: Lines = Vec::new();
    for size in LONG {
        let count = if size > 200_000 { 1 } else { starts.len() };
        lines.extend(starts[..count].iter().map(|start| long(size, start)));
    }
    // A good frame right behind the 518th digit is no frame.
    lines.push([&vec![b'0'; 518][..], b"03"].concat());
    lines.push([&Set::new(32, &[(1, 2); 64]).line()[..], b"03"].concat());
    lines
}

/// So many lines that every buffer on the way is filled more than once.
fn many_lines() -> Lines {
    let mut lines = vec![Vec::new(); 20_000];
    lines.push(Set::new(1, &[(1, 2), (1, 3)]).line());
    lines.extend(vec![listing(); 20_000]);
    lines.extend(vec![run(1); 5_000]);
    lines
}

/// Each kind of last line, with and without its line feed.
fn last_lines() -> Vec<Named> {
    let set = Set::new(1, &[(1, 2), (1, 3)]).line();
    let mut lasts = vec![
        run(1),
        run(0),
        listing(),
        set.clone(),
        b"0".to_vec(),
        b"\r".to_vec(),
    ];
    lasts.extend([
        Vec::new(),
        b"02000".to_vec(),
        vec![b'0'; 518],
        vec![b'0'; 519],
    ]);
    lasts.extend([
        vec![b'0'; 70_000],
        vec![b'3'; 4 << 20],
        Set::new(32, &[(1, 2); 64]).line(),
    ]);
    let mut scripts = Vec::new();
    for last in lasts {
        for lines in [vec![last.clone()], vec![set.clone(), last.clone()]] {
            for script in [Script::new(lines.clone()), Script::unended(lines)] {
                let name = "last line";
                scripts.push(Named { name, script });
            }
        }
    }
    scripts
}

/// Frames that lie across the ends of buffers of the usual sizes, behind an
/// over-long line and behind many short ones.
fn across_buffers() -> Vec<Named> {
    let frames = [Set::new(1, &[(1, 2), (1, 3)]).line(), run(3), listing()];
    let mut scripts = Vec::new();
    for size in [512, 1_024, 4_096, 8_192, 32_768, 65_536] {
        for before in (0..34).step_by(3) {
            let mut lines = vec![vec![b'0'; size - before]];
            lines.extend(frames.clone());
            scripts.push(named("across a buffer, long line", lines));
            let mut lines = vec![b"03".to_vec(); (size - before) / 3];
            lines[0].extend(vec![b'0'; (size - before) % 3]);
            lines.extend(frames.clone());
            scripts.push(named("across a buffer, short lines", lines));
        }
    }
    scripts
}
