//! Stands in for the crate `geo`. Nothing is measured here: points and lines carry the values that a case hands over.

use serde::{Deserialize, Serialize};
use std::cell::RefCell;
use std::marker::PhantomData;

thread_local! {
    /// The distances of all fixes of a drive, one fix after the other.
    static DISTANCES: RefCell<Vec<f64>> = const { RefCell::new(Vec::new()) };
}

/// Hands over the distances that candidates' points then look up.
pub fn hand_over(distances: Vec<f64>) {
    DISTANCES.with(|table| *table.borrow_mut() = distances);
}

#[derive(Debug, Clone, Copy, PartialEq, Serialize, Deserialize)]
pub struct Coord<T> {
    pub x: T,
    pub y: T,
}

/// A line's length and its four headings: out at side 0, out at side 1, in at side 0, in at side 1.
#[derive(Debug, Clone, Copy, Serialize, Deserialize)]
pub struct Handed {
    pub length: f64,
    pub headings: [f64; 4],
}

/// A line of three points, or of one where its headings do not count. The x of a point is its place on the line.
#[derive(Debug, Clone, Serialize, Deserialize)]
pub struct LineString<T>(pub Vec<Coord<T>>, pub Handed);

impl LineString<f64> {
    pub fn handed(length: f64, headings: [f64; 4], has_headings: bool) -> Self {
        let places: &[f64] = if has_headings { &[0.0, 1.0, 2.0] } else { &[0.0] };
        let coords = places.iter().map(|&x| Coord { x, y: 0.0 }).collect();
        LineString(coords, Handed { length, headings })
    }

    pub fn coords(&self) -> impl Iterator<Item = &Coord<f64>> {
        self.0.iter()
    }

    pub fn points(&self) -> impl Iterator<Item = Point<f64>> + '_ {
        self.0.iter().map(|coord| Point::made(Carried::Line(*coord, self.1)))
    }
}

/// A candidate's number, its near flag, and where the distances to it stand: `first + stride * i` has that from
/// candidate `i` of the predecessor.
#[derive(Debug, Clone, Copy)]
pub struct Candidate {
    pub number: usize,
    pub near: bool,
    pub first: usize,
    pub stride: usize,
}

#[derive(Debug, Clone, Copy)]
enum Carried {
    Bare(Coord<f64>),
    Line(Coord<f64>, Handed),
    Candidate(Candidate),
}

#[derive(Debug, Clone, Copy)]
pub struct Point<T>(Carried, PhantomData<T>);

impl Point<f64> {
    fn made(carried: Carried) -> Self {
        Point(carried, PhantomData)
    }

    pub fn new(x: f64, y: f64) -> Self {
        Self::made(Carried::Bare(Coord { x, y }))
    }

    pub fn candidate(candidate: Candidate) -> Self {
        Self::made(Carried::Candidate(candidate))
    }

    fn coord(&self) -> Coord<f64> {
        match self.0 {
            Carried::Bare(coord) | Carried::Line(coord, _) => coord,
            Carried::Candidate(_) => panic!("a candidate has no coordinates"),
        }
    }

    pub fn x(&self) -> f64 {
        self.coord().x
    }

    pub fn y(&self) -> f64 {
        self.coord().y
    }

    /// The heading from this point of a line to a neighbouring one.
    pub fn heading_to(&self, other: &Self) -> f64 {
        let (Carried::Line(a, handed), Carried::Line(b, _)) = (self.0, other.0) else {
            panic!("a heading is handed over for the points of a line only");
        };
        let [out_0, out_1, in_0, in_1] = handed.headings;
        match (a.x as u8, b.x as u8) {
            (1, 0) => out_0,
            (1, 2) => out_1,
            (0, 1) => in_0,
            (2, 1) => in_1,
            _ => panic!("no such heading"),
        }
    }
}

pub trait HaversineDistance {
    fn haversine_distance(&self, other: &Self) -> f64;
}

impl HaversineDistance for Point<f64> {
    /// Between candidates: the distance handed over. From a candidate to an element's end: 0 if it is near, else infinite.
    fn haversine_distance(&self, other: &Self) -> f64 {
        match (self.0, other.0) {
            (Carried::Candidate(a), Carried::Candidate(b)) => {
                DISTANCES.with(|table| table.borrow()[b.first + b.stride * a.number])
            }
            (Carried::Candidate(a), _) if a.near => 0.0,
            (Carried::Candidate(_), _) => f64::INFINITY,
            _ => panic!("no distance was handed over"),
        }
    }
}

pub trait HaversineLength {
    fn haversine_length(&self) -> f64;
}

impl HaversineLength for LineString<f64> {
    fn haversine_length(&self) -> f64 {
        self.1.length
    }
}

pub mod algorithm {
    pub mod haversine_distance {
        pub use crate::HaversineDistance;
    }
}
