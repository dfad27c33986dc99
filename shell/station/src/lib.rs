//! A session of a loader on the simulated card, told as a loader's engineer wants to see it.
//!
//! `over` is the session's bus over the world's, `options` what the command line says, `uses` the calls on the open session,
//! `card` the card that is made, `follow` the commands among the bus calls, `calls` the bus calls as lines, `progress` the line
//! while a command is waited for, `words` the meanings of numbers, `report` what is printed of a session, `picture` its layout
//! as a picture, and `run` the whole.

mod calls;
mod card;
mod follow;
pub mod options;
pub mod over;
mod picture;
mod progress;
mod report;
pub mod run;
pub mod uses;
pub mod words;
