//! What stands in a command's way, and the status with which it then ends.

use std::io::{stderr, Write};

/// The exit status where the content of a file stands in the way: a fault, a refusal, a break.
pub const CONTENT: i32 = 1;

/// The exit status where the command line is wrong, or something cannot be read, written or run.
pub const USAGE: i32 = 2;

#[derive(Debug)]
pub struct Trouble {
    pub status: i32,
    pub message: String,
}

impl Trouble {
    pub fn content(message: String) -> Trouble {
        Trouble { status: CONTENT, message }
    }

    /// Wrong usage, or something that cannot be read, written or run; told with the program's name.
    pub fn usage(message: String) -> Trouble {
        Trouble { status: USAGE, message: format!("hookup: {message}") }
    }

    /// Tells it on standard error, and gives the status; where standard error is closed, that must do.
    pub fn told(self) -> i32 {
        let _ = writeln!(stderr(), "{}", self.message);
        self.status
    }
}
