//! Rows, wrapped rows, and what the numbers in them count.

use board::answered::Standing;
use board::asked::Task;
use board::bands::bands;
use board::grid::Look;
use board::night::Night;
use board::page::page;
use board::pairing::night;
use board::picture::picture;
use board::words::{self, Names};

const PLAIN: Look = Look {
    width: 100,
    ascii: true,
    colour: false,
};

/// Document 01's whole case.
fn whole_case() -> Night {
    let asked = "0101020001000200010003\n020006\n";
    let answered = "8101000000060000000100000006\n82000000000100\n82000000010101\n82000000020100\n\
                    82000000030101\n82000000040100\n820000000500\n";
    night(asked.as_bytes(), answered.as_bytes())
}

/// One task that runs in every second slot, on 12 units of which 1 is in use.
fn long_night(slots: usize) -> Night {
    let answers: String = (0..slots)
        .map(|time| {
            if time % 2 == 0 {
                format!("82{time:08X}0100\n")
            } else {
                format!("82{time:08X}00\n")
            }
        })
        .collect();
    let answered = format!("8101000000020000000100000002\n{answers}");
    let night = night(
        format!("010C0100010002\n02{slots:04X}\n").as_bytes(),
        answered.as_bytes(),
    );
    assert_eq!(night.misfit, None);
    night
}

#[test]
fn the_whole_case() {
    let text = page(&whole_case(), &Names(vec!["claims".into()]), PLAIN);
    for row in [
        "  claims 1/2       | # . # . # .",
        "  task 1 1/3       | . # . # . .",
        "  idle units         0 0 0 0 0 1",
        "  of these, spare    . . . . . 1",
        "  time               0         5",
        "  Spare: 1/6, so 1 of every 6 unit-slots of the 1 unit in use is idle.",
        "      claims           has had 3 slots; its share is 3",
        "A view only: nothing proved depends on it.",
    ] {
        assert!(
            text.lines().any(|line| line == row),
            "no row {row:?} in\n{text}"
        );
    }
}

#[test]
fn bands_fill_and_wrap() {
    let columns = [1, 2, 3, 4, 5];
    assert_eq!(bands(&columns, 2, |_| 1), [&[1, 2][..], &[3, 4], &[5]]);
    assert_eq!(
        bands(&columns, 5, |width| *width),
        [&[1, 2][..], &[3], &[4], &[5]]
    );
    assert_eq!(bands(&columns, 0, |_| 1).len(), 5);
    assert!(bands(&columns[..0], 5, |_| 1).is_empty());
}

#[test]
fn wide_runs_wrap_and_lose_no_slot() {
    for width in [40, 41, 60, 100, 2000] {
        let text = page(
            &long_night(1000),
            &Names::default(),
            Look { width, ..PLAIN },
        );
        let row = |line: &&str| line.starts_with("  task 0");
        let cells: String = text
            .lines()
            .filter(row)
            .map(|line| line[19..].to_string())
            .collect();
        assert_eq!(cells.matches('#').count(), 500, "width {width}");
        assert_eq!(cells.matches('.').count(), 500, "width {width}");
        assert!(
            text.lines().all(|line| line.chars().count() <= width),
            "width {width}"
        );
        let room = width - 19;
        let bands = if 1001 * 2 <= room + 1 {
            1
        } else {
            1001_usize.div_ceil(room)
        };
        assert_eq!(text.lines().filter(row).count(), bands, "width {width}");
    }
}

#[test]
fn each_band_starts_with_its_time() {
    let text = page(
        &long_night(100),
        &Names::default(),
        Look { width: 59, ..PLAIN },
    );
    let times: Vec<&str> = text
        .lines()
        .filter(|line| line.starts_with("  time"))
        .collect();
    assert_eq!(times.len(), 3);
    assert_eq!(
        times[1],
        format!("  time{}39 ", " ".repeat(13))
            .trim_end()
            .to_string()
            + &times[1][21..]
    );
    assert!(times[2]
        .trim_start_matches("  time")
        .trim_start()
        .starts_with("79"));
}

#[test]
fn always_idle_units_and_the_spare_are_told_apart() {
    let text = page(&long_night(4), &Names::default(), PLAIN);
    assert!(text.contains("Units: 1 of 12 in use (M = 1); 11 units are always idle."));
    // 11 and 12 read downwards.
    assert!(text.contains("  idle units         1 1 1 1\n                     1 2 1 2\n  of these, spare    . 1 . 1\n"), "{text}");
}

#[test]
fn shares_are_exact() {
    let share = |requirement, period, time| {
        words::share(
            &Task {
                requirement,
                period,
            },
            time,
        )
    };
    assert_eq!(share(3, 4, 10), "7 1/2");
    assert_eq!(share(1, 3, 1), "1/3");
    assert_eq!(share(1, 2, 8), "4");
    assert_eq!(share(65534, 65535, 16_777_215), "16776958 256/257");
    assert_eq!(share(1, 0, 5), "unknown");
}

#[test]
fn behind_is_said_beside_late() {
    assert_eq!(words::standing(Standing::Behind), "late (behind)");
    let asked = "0101020001000200010003\n020001\n03\n";
    let answered = "8101000000060000000100000006\n82000000000100\n8300000001414C\n";
    let text = page(
        &night(asked.as_bytes(), answered.as_bytes()),
        &Names::default(),
        PLAIN,
    );
    assert!(
        text.contains("task 1           late (behind)  has had 0 slots; its share is 1/3"),
        "{text}"
    );
    assert!(text.contains("L late, which is the listing's word for behind its share"));
}

#[test]
fn the_picture_is_closed_and_escaped() {
    let svg = picture(&whole_case(), &Names(vec!["<a> & \u{7}b".into()]));
    assert!(svg.starts_with("<svg ") && svg.ends_with("</svg>\n"));
    assert!(svg.contains("&lt;a&gt; &amp; ?b") && svg.contains(words::VIEW_ONLY));
    assert_eq!(svg.matches("<text").count(), svg.matches("</text>").count());
}

#[test]
fn a_set_without_slots_names_its_tasks() {
    let night = night(b"01010100010002\n", b"8101000000020000000100000002\n");
    let names = Names(vec!["claims".into()]);
    let words = "Nothing was asked under this set yet. Tasks: claims 1/2.";
    assert!(page(&night, &names, PLAIN).contains(words) && picture(&night, &names).contains(words));
}

#[test]
fn colours_only_if_wanted() {
    assert!(!page(&whole_case(), &Names::default(), PLAIN).contains('\x1b'));
    assert!(page(
        &whole_case(),
        &Names::default(),
        Look {
            colour: true,
            ..PLAIN
        }
    )
    .contains("\x1b[34m#\x1b[0m"));
    assert!(page(&whole_case(), &Names::default(), PLAIN).is_ascii());
}
