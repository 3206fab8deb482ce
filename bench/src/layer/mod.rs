//! The calls of the layer, and the same over arrow2.
pub mod original;
pub mod ours;
