//! Document 01, "Refusals", as far as a frame can meet them.

/// "8F, number (1), place (1) for 4 and 8, FF for the others".
#[derive(Debug, Clone, Copy, PartialEq, Eq)]
pub struct Refusal {
    pub number: u8,
    pub place: u8,
}

impl Refusal {
    /// 2: "n is 0 or above 64"
    pub const TASKS: Refusal = without_place(2);
    /// 3: "m is 0 or above 32"
    pub const UNITS: Refusal = without_place(3);
    /// 5: "L is above 1,048,576"
    pub const MULTIPLE: Refusal = without_place(5);
    /// 6: "the load is above m·L"
    pub const LOAD: Refusal = without_place(6);
    /// 7: "t is above 16,777,215"
    pub const TIME: Refusal = without_place(7);
    /// 9: "more than M tasks are urgent, or fewer than M are not tnegru"
    pub const CHOICE: Refusal = without_place(9);
    /// 10: "a run asks more than 1,024 slots"
    pub const SLOTS: Refusal = without_place(10);
    /// 11: "a frame is malformed"
    pub const MALFORMED: Refusal = without_place(11);

    /// 4: "some e or p is outside its limits", "lowest such place"
    pub fn limits(place: usize) -> Refusal {
        Refusal {
            number: 4,
            place: place as u8,
        }
    }
}

const fn without_place(number: u8) -> Refusal {
    Refusal {
        number,
        place: 0xFF,
    }
}
