//! Names of tasks, and any text that a person wrote: what of it may reach a terminal.

/// Whether a character shows as itself. Control characters and those that turn the direction of writing do not.
pub fn prints(letter: char) -> bool {
    let invisible = matches!(
        letter as u32,
        0xAD | 0x200B | 0x200E..=0x200F | 0x2028..=0x202E | 0x2060..=0x206F | 0xFEFF | 0xFFF9..=0xFFFB | 0xFFFE..=0xFFFF
            | 0xE0000..=0xE007F
    );
    !letter.is_control() && !invisible
}

/// The name that a task has where none is known.
pub fn of_place(place: usize) -> String {
    format!("task {place}")
}

/// As much of what a person wrote as a message can hold, in quotes, with nothing in it that could steer a terminal.
pub fn shown(text: &str) -> String {
    const MOST: usize = 40;
    let safe = |letter| if prints(letter) { letter } else { '?' };
    let part: String = text.chars().take(MOST).map(safe).collect();
    let more = if text.chars().count() > MOST {
        "..."
    } else {
        ""
    };
    format!("\"{part}{more}\"")
}
