//! Stands in for koto_memory: a counted pointer.

pub use std::rc::Rc as Ptr;
