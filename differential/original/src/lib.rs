//! The original's routing, decoding, segments and collapsing, with the stand-ins put in by `build`. Only this file, `models.rs` and the
//! head of `path.rs` are ours.
#![allow(warnings)]

pub mod errors;
pub mod models;
pub mod path;

/// The tables of a decoding, which the original keeps to itself: scores and parents by row and candidate.
pub mod tables {
    use std::cell::RefCell;

    pub type Tables = (Vec<Vec<f64>>, Vec<Vec<Option<usize>>>);

    thread_local! {
        static LAST: RefCell<Tables> = const { RefCell::new((Vec::new(), Vec::new())) };
    }

    pub fn keep(scores: &[Vec<f64>], parents: &[Vec<Option<usize>>]) {
        LAST.with(|last| *last.borrow_mut() = (scores.to_vec(), parents.to_vec()));
    }

    pub fn take() -> Tables {
        LAST.with(|last| last.take())
    }
}
