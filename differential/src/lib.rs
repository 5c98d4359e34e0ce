//! Reads cases, answers them by document 01 or by the original, makes new ones and compares answers.

pub mod checks;
pub mod document;
pub mod drives;
pub mod journal;
pub mod language;
pub mod networks;
pub mod original;
pub mod random;
pub mod replays;
pub mod routes;
pub mod segments;
pub mod session;
