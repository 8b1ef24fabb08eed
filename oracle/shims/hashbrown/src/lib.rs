//! Stands in for `hashbrown`: the standard library's map, which is a hashbrown map with another hasher.

pub use std::collections::HashMap;
