//! The original's path module: the four parts that are driven, and its settings, which `build` adds below.

use crate::errors::ProjectionError;
use crate::models::ResolvedAnchor;
use serde::{Deserialize, Serialize};

pub mod candidate;
pub mod graph;
pub mod probability;
pub mod viterbi;

