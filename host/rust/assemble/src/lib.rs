//! What the programs beside the examples share: files and standard streams, numbers as a user
//! writes them, and what their messages quote. And the assembler's own part, the lines of a text,
//! with which a picture's tests make scripts.

#![forbid(unsafe_code)]

pub mod number;
pub mod quote;
pub mod stream;
pub mod text;
