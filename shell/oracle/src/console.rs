//! The console that the sources write to: every line is formatted and kept
//! with the call that is running.

use core::fmt::Arguments;

use crate::glue;

#[derive(Clone, Copy, PartialEq, Eq, Debug)]
pub enum Kind {
    Say,
    Trace,
    Alarm,
}

#[derive(Clone, Debug)]
pub struct Line {
    pub kind: Kind,
    pub text: String,
    /// The µs waited since the last line or the last posted command: at a
    /// command's own line, the sum of its stalls.
    pub waited: u64,
}

pub fn line(kind: Kind, args: Arguments) {
    glue::keep_line(kind, args.to_string());
}

macro_rules! say {
    ($($t:tt)*) => { $crate::console::line($crate::console::Kind::Say, format_args!($($t)*)) };
}
macro_rules! trace {
    ($($t:tt)*) => { $crate::console::line($crate::console::Kind::Trace, format_args!($($t)*)) };
}
macro_rules! alarm {
    ($($t:tt)*) => { $crate::console::line($crate::console::Kind::Alarm, format_args!($($t)*)) };
}
macro_rules! note {
    ($loud:expr, $($t:tt)*) => {
        if $loud { say!($($t)*) } else { trace!($($t)*) }
    };
}
