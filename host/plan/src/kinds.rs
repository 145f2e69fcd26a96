//! The table of frames: each kind's code, its word in a plan, and its layout. A new kind of frame is a row of `KINDS`.

/// A number in a frame, big-endian.
#[derive(Debug, PartialEq, Eq)]
pub struct Field {
    pub name: &'static str,
    pub bytes: u32,
    /// A value to show how it is written.
    pub such_as: u32,
}

impl Field {
    /// The greatest number that the field can carry; whether it is admissible is not asked here.
    pub const fn most(&self) -> u32 {
        ((1_u64 << (8 * self.bytes)) - 1) as u32
    }
}

/// What comes behind the numbers of a frame.
#[derive(Debug, PartialEq, Eq)]
pub enum Follows {
    Nothing,
    /// How many tasks, and then each task's two numbers. In a plan: a line for each task.
    Tasks,
}

#[derive(Debug, PartialEq, Eq)]
pub struct Kind {
    pub code: u8,
    /// The word that such a line of a plan begins with.
    pub word: &'static str,
    /// Its numbers, in the plan's order and in the frame's.
    pub fields: &'static [Field],
    pub follows: Follows,
    pub meaning: &'static str,
}

const fn field(name: &'static str, bytes: u32, such_as: u32) -> Field {
    Field {
        name,
        bytes,
        such_as,
    }
}

pub const HOW_MANY_TASKS: Field = field("tasks", 1, 4);
pub const REQUIREMENT: Field = field("requirement", 2, 3);
pub const PERIOD: Field = field("period", 2, 4);

pub static KINDS: [Kind; 3] = [
    Kind {
        code: 0x01,
        word: "units",
        fields: &[field("units", 1, 3)],
        follows: Follows::Tasks,
        meaning: "a new set on so many units; its tasks follow, a line each",
    },
    Kind {
        code: 0x02,
        word: "run",
        fields: &[field("slots", 2, 10)],
        follows: Follows::Nothing,
        meaning: "run so many slots",
    },
    Kind {
        code: 0x03,
        word: "list",
        fields: &[],
        follows: Follows::Nothing,
        meaning: "list who stands where",
    },
];

/// The word of a line that is sent as it stands.
pub const RAW: &str = "raw";

/// How a task is written, for those who wrote it otherwise.
pub const TASK_SUCH_AS: &str = "claims 3/4";

pub fn of_word(word: &str) -> Option<&'static Kind> {
    KINDS.iter().find(|kind| kind.word == word)
}

pub fn of_code(code: u8) -> Option<&'static Kind> {
    KINDS.iter().find(|kind| kind.code == code)
}

/// Every word that a line of a plan can begin with, tasks apart.
pub fn plan_words() -> Vec<&'static str> {
    KINDS.iter().map(|kind| kind.word).chain([RAW]).collect()
}

impl Kind {
    /// The line as it could stand in a plan: "run 10".
    pub fn such_as(&self) -> String {
        let number = |field: &Field| format!(" {}", field.such_as);
        let numbers: String = self.fields.iter().map(number).collect();
        format!("{}{numbers}", self.word)
    }

    /// The line with its numbers by name: "run SLOTS".
    pub fn usage(&self) -> String {
        let number = |field: &Field| format!(" {}", field.name.to_uppercase());
        let numbers: String = self.fields.iter().map(number).collect();
        format!("{}{numbers}", self.word)
    }

    pub fn has_tasks(&self) -> bool {
        self.follows == Follows::Tasks
    }

    /// What a frame of this kind is made of, for those who wrote it otherwise.
    pub fn layout(&self) -> String {
        let number = |field: &Field| format!(", {} ({} digits)", field.name, 2 * field.bytes);
        let numbers: String = self.fields.iter().map(number).collect();
        let task = 2 * (REQUIREMENT.bytes + PERIOD.bytes);
        let tasks = match self.follows {
            Follows::Nothing => String::new(),
            Follows::Tasks => format!(", the number of tasks (2 digits) and {task} digits a task"),
        };
        match format!("{numbers}{tasks}").as_str() {
            "" => format!("is {:02X} and nothing else", self.code),
            parts => format!("is {:02X}{parts}", self.code),
        }
    }
}
