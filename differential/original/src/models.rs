//! The original's models that routing, decoding and segments use.

pub mod associated_net_element;
pub mod detection;
pub mod netelement;
pub mod netrelation;
pub mod path_origin;

pub use associated_net_element::AssociatedNetElement;
pub use detection::ResolvedAnchor;
pub use netelement::Netelement;
pub use netrelation::NetRelation;
pub use path_origin::PathOrigin;

/// Read by the original's search for candidates, which is not driven.
pub struct GnssPosition {
    pub latitude: f64,
    pub longitude: f64,
}
