//! Tests of the session kit through its C interface.
//! `solver` is what the kit is held against; `gen` makes inputs; `compare` plays both and shrinks what differs;
//! `meaning` holds a clause text to what it is to say.

pub mod compare;
pub mod gen;
pub mod kit;
pub mod meaning;
pub mod program;
pub mod solver;
pub mod ward;
pub mod words;
