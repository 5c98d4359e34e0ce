//! The archive's calls, with the parameters of `include/box.h` in its order. Only `matcher.rs` makes them.

use crate::Segment;

/// The network's twelve slices, then a call's own parameters.
macro_rules! on_network {
    ($($call:ident($($name:ident: $type:ty),*);)*) => {
        #[link(name = "host", kind = "static")]
        #[link(name = "m")]
        extern "C" {
            $(pub fn $call(
                lengths: *const f64, length_count: usize, headings: *const f64, heading_count: usize,
                flags: *const u32, flag_count: usize, from: *const u32, from_count: usize, to: *const u32, to_count: usize,
                from_side: *const u32, from_side_count: usize, to_side: *const u32, to_side_count: usize,
                forward: *const u32, forward_count: usize, backward: *const u32, backward_count: usize,
                window_counts: *const u32, window_count_count: usize, window_firsts: *const u32, window_first_count: usize,
                window_lasts: *const u32, window_last_count: usize, $($name: $type),*
            ) -> u32;)*
        }
    };
}

on_network! {
    box_check_network();
    box_shortest_path_distance(minute: u32, start: u32, start_side: u32, goal: u32, goal_side: u32, cost: *mut f64);
    box_shortest_path_route(
        minute: u32, start: u32, start_side: u32, goal: u32, goal_side: u32,
        states: *mut u32, state_room: usize, cost: *mut f64, count: *mut usize
    );
    box_triple_is_consistent(minute: u32, a: u32, b: u32, c: u32, consistent: *mut u32);
    box_feed(
        beta: f64, scale: f64, journal: *mut u32, journal_words: usize, minute: u32, elements: *const u32, element_count: usize,
        intrinsics: *const f64, intrinsic_count: usize, near: *const u32, near_count: usize,
        raw_logs: *const f64, raw_log_count: usize, distances: *const f64, distance_count: usize
    );
    box_list_steps(
        beta: f64, scale: f64, journal: *const u32, journal_words: usize, row: u32,
        predecessor_rows: *mut u32, predecessor_row_room: usize, predecessor_candidates: *mut u32, predecessor_candidate_room: usize,
        rows: *mut u32, row_room: usize, candidates: *mut u32, candidate_room: usize, steps: *mut f64, step_room: usize,
        count: *mut usize
    );
    box_replay(beta: f64, scale: f64, journal: *const u32, journal_words: usize, row: *mut u32);
    box_build_path(journal: *const u32, journal_words: usize, segments: *mut Segment, segment_room: usize, count: *mut usize);
}

extern "C" {
    pub fn box_open(journal: *mut u32, journal_words: usize) -> u32;
    pub fn box_predecessor(journal: *const u32, journal_words: usize, row: *mut u32, candidates: *mut usize) -> u32;
    pub fn box_strike(journal: *mut u32, journal_words: usize, rows: u32) -> u32;
    pub fn box_close(
        journal: *const u32, journal_words: usize, rows: *mut u32, row_room: usize, candidates: *mut u32, candidate_room: usize,
        score: *mut f64, count: *mut usize,
    ) -> u32;
    pub fn box_read_row(
        journal: *const u32, journal_words: usize, row: u32, elements: *mut u32, element_room: usize,
        intrinsics: *mut f64, intrinsic_room: usize, near: *mut u32, near_room: usize, raw_logs: *mut f64, raw_log_room: usize,
        parents: *mut u32, parent_room: usize, scores: *mut f64, score_room: usize, distances: *mut f64, distance_room: usize,
        candidates: *mut usize, predecessor_candidates: *mut usize, minute: *mut u32,
    ) -> u32;
    pub fn box_remove_oscillations(
        segments: *mut Segment, segment_count: usize, decisions: *mut u32, decision_words: usize, left: *mut usize, decided: *mut usize,
    ) -> u32;
}
