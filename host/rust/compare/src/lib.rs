//! Compares the library and the script program to the model: spaces, tables, requests and scripts
//! to compare them on, and the comparisons themselves.

#![deny(unsafe_code)]

pub mod batches;
pub mod calls;
pub mod courses;
pub mod entries;
pub mod library;
pub mod lists;
pub mod mappings;
pub mod marks;
pub mod memory;
pub mod near;
pub mod numbers;
pub mod paging;
pub mod pieces;
pub mod printed;
pub mod program;
pub mod requests;
pub mod scripts;
pub mod sights;
pub mod tables;
mod unread;
pub mod walk;
