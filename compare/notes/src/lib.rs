//! Notes: those of the documents, and those that are made.

pub mod chance;
pub mod made;
pub mod service;
pub mod tables;
