//! Box's calls, as the archive of `host` exports them.

macro_rules! calls {
    ($($name:ident($($argument:ident: $kind:ty),*);)*) => {
        extern "C" {
            $(pub fn $name($($argument: $kind),*) -> u32;)*
        }
    };
}

/// Calls that take the network's twelve slices first.
macro_rules! calls_on_network {
    ($($name:ident($($argument:ident: $kind:ty),*);)*) => {
        calls! {
            $($name(
                lengths: Floats, n0: usize, headings: Floats, n1: usize, flags: Words, n2: usize, from: Words, n3: usize, to: Words, n4: usize,
                from_side: Words, n5: usize, to_side: Words, n6: usize, forward: Words, n7: usize, backward: Words, n8: usize,
                window_counts: Words, n9: usize, window_firsts: Words, n10: usize, window_lasts: Words, n11: usize, $($argument: $kind),*
            );)*
        }
    };
}

#[repr(C)]
#[derive(Clone, Copy, Default)]
pub struct Segment {
    pub element: u32,
    pub start: f64,
    pub end: f64,
    pub first_row: u32,
    pub last_row: u32,
}

type Words = *const u32;
type Floats = *const f64;

calls_on_network! {
    box_shortest_path_distance(minute: u32, start: u32, start_side: u32, goal: u32, goal_side: u32, cost: *mut f64);
    box_feed(
        beta: f64, scale: f64, journal: *mut u32, words: usize, minute: u32, elements: Words, n12: usize, intrinsics: Floats, n13: usize,
        near: Words, n14: usize, raw_logs: Floats, n15: usize, distances: Floats, n16: usize
    );
    box_replay(beta: f64, scale: f64, journal: Words, words: usize, row: *mut u32);
    box_build_path(journal: Words, words: usize, segments: *mut Segment, n12: usize, count: *mut usize);
}

calls! {
    box_open(journal: *mut u32, words: usize);
    box_strike(journal: *mut u32, words: usize, n: u32);
    box_close(journal: Words, words: usize, rows: *mut u32, n0: usize, candidates: *mut u32, n1: usize, score: *mut f64, count: *mut usize);
}

#[cfg(feature = "before")]
calls! {
    before_box_strike(journal: *mut u32, words: usize, n: u32);
}
