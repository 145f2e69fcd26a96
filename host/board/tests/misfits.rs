//! Files that do not fit each other: a message with the line, what came before it shown, never a panic.

use board::grid::Look;
use board::page::page;
use board::pairing::night;
use board::picture::picture;
use board::words::Names;

const ASKED: &str = "0101020001000200010003\n020003\n03\n";
const ANSWERED: &str = "8101000000060000000100000006\n82000000000100\n82000000010101\n82000000020100\n8300000003414 C\n";

/// The answer to the first line.
const FIRST: &str = "8101000000060000000100000006\n";

fn message(asked: &str, answered: &str) -> String {
    let night = night(asked.as_bytes(), answered.as_bytes());
    let text = page(
        &night,
        &Names::default(),
        Look {
            width: 100,
            ascii: false,
            colour: false,
        },
    );
    let misfit = night
        .misfit
        .map(|misfit| misfit.to_string())
        .unwrap_or_default();
    assert_eq!(text.contains("STOPPED HERE"), !misfit.is_empty());
    misfit
}

#[test]
fn what_fits_has_no_message() {
    let answered = ANSWERED.replace("8300000003414 C", "83000000034150");
    assert_eq!(message(ASKED, &answered), "");
    assert_eq!(message("", ""), "");
    assert_eq!(message(ASKED.trim_end(), answered.trim_end()), "");
    // A run of 0 slots under a set has no answer.
    assert_eq!(
        message(
            "01010100010002\n020000\n03\n",
            "8101000000020000000100000002\n830000000050\n"
        ),
        ""
    );
}

fn each_names_its_line(cases: &[(&str, &str)]) {
    for (answered, part) in cases {
        let message = message(ASKED, answered);
        assert!(message.contains(part), "{answered:?}: {message}");
    }
}

#[test]
fn answers_that_end_too_soon_or_too_late() {
    let too_many = ANSWERED.replace("8300000003414 C", "83000000034150\n8F0BFF\n8F0BFF");
    each_names_its_line(&[
        (
            "",
            "asked line 1: the answers end after answered line 0: none for a set",
        ),
        (
            FIRST,
            "asked line 2: the answers end after answered line 1: none for slot 1 of 3",
        ),
        (&format!("{FIRST}82000000000100\n"), "none for slot 2 of 3"),
        (&too_many, "answered line 6: nothing was asked"),
    ]);
}

#[test]
fn slots_that_do_not_fit() {
    let slot = |line: &str| format!("{FIRST}{line}\n");
    each_names_its_line(&[
        (
            &slot("82000000010100"),
            "answered line 2: time 1, where time 0 was to come",
        ),
        (
            &slot("82000000000102"),
            "answered line 2: a place above the last of the 2 tasks",
        ),
        (
            &slot("8200000000020001"),
            "answered line 2: more tasks than units in use (1)",
        ),
        (
            &slot("830000000050"),
            "answered line 2: slot 1 of 3 of the run at asked line 2 was to come",
        ),
        (&slot("8200000000020100"), "answered line 2: no answer line"),
    ]);
}

#[test]
fn sets_and_listings_that_do_not_fit() {
    let listing = |line: &str| ANSWERED.replace("8300000003414 C", line);
    each_names_its_line(&[
        (
            ANSWERED,
            "answered line 5: no answer line: \"8300000003414 C\"",
        ),
        (
            "8102000000060000000100000006\n",
            "answered line 1: 2 units in use, but asked line 1 gives 1",
        ),
        ("82000000000100\n", "answered line 1: asked line 1 is a set"),
        (&listing("830000000341"), "answered line 5: 1 of 2 marks"),
        (
            &listing("83000000044150"),
            "answered line 5: time 4, where time 3",
        ),
        (
            &listing("83000000034142"),
            "answered line 5: no answer line",
        ),
    ]);
}

#[test]
fn an_answer_where_only_a_refusal_fits() {
    assert!(message("XX\n", "830000000050\n").contains("answered line 1: asked line 1 is no frame"));
    assert!(message("03\n", "8300000000\n").contains("a listing before any set"));
    assert!(message("020001\n", "820000000000\n").contains("a slot before any set"));
}

#[test]
fn zeros_where_none_may_be_are_shown_all_the_same() {
    let asked = "01010200000000FFFFFFFF\n020001\n03\n010000\n020001\n";
    let answered = "8101000000000000000500000000\n820000000000\n83000000014C4C\n8100000000000000000000000000\n820000000000\n";
    assert_eq!(message(asked, answered), "");
}

/// A small generator, so that every run of the tests tries the same bytes.
struct Seeded(u64);

impl Seeded {
    fn below(&mut self, limit: usize) -> usize {
        self.0 = self
            .0
            .wrapping_mul(6364136223846793005)
            .wrapping_add(1442695040888963407);
        (self.0 >> 33) as usize % limit
    }

    fn bytes(&mut self, alphabet: &[u8]) -> Vec<u8> {
        (0..self.below(200))
            .map(|_| alphabet[self.below(alphabet.len())])
            .collect()
    }

    /// A text with a few bytes put out, put in or changed.
    fn damaged(&mut self, text: &str) -> Vec<u8> {
        let mut bytes = text.as_bytes().to_vec();
        for _ in 0..=self.below(4) {
            let (at, byte) = (self.below(bytes.len()), self.below(256) as u8);
            match self.below(3) {
                0 => bytes[at] = b"0123456789ABCDEF\n"[usize::from(byte) % 17],
                1 => bytes.insert(at, byte),
                _ => drop(bytes.remove(at)),
            }
        }
        bytes
    }
}

#[test]
fn garbage_never_ends_it() {
    let every: Vec<u8> = (0..=255).collect();
    let alphabets: [&[u8]; 4] = [&every, b"0123456789ABCDEF\n", b"0128F\n", b"\n"];
    let mut seeded = Seeded(20);
    for turn in 0..6_000 {
        let asked = if turn % 2 == 0 {
            seeded.damaged(ASKED)
        } else {
            seeded.bytes(alphabets[turn / 2 % 4])
        };
        let answered = if turn % 3 != 0 {
            seeded.damaged(ANSWERED)
        } else {
            seeded.bytes(alphabets[turn / 3 % 4])
        };
        let night = night(&asked, &answered);
        let look = Look {
            width: 40 + turn % 80,
            ascii: turn % 2 == 0,
            colour: turn % 5 == 0,
        };
        let text = page(&night, &Names::default(), look);
        assert!(text.contains("A view only"));
        let svg = picture(&night, &Names::default());
        let stray = |letter: char| letter.is_control() && letter != '\n';
        assert!(!svg.contains(stray) && (look.colour || !text.contains(stray)));
    }
}
