//! An independent second program for the same paper: plain, naive, by dictionaries and sets.
//!
//! Row numbers and capabilities are kept in a dictionary, the derivation list as a list of rows with depths;
//! whatever the paper says about them is computed by walking these, one small function for each notion.

pub mod answers;
pub mod benchmark;
pub mod boot;
pub mod cases;
pub mod console;
pub mod coverage;
pub mod damage;
pub mod estates;
pub mod generate;
pub mod lookup;
pub mod operations;
pub mod random;
pub mod removal;
pub mod request;
pub mod rules;
pub mod separation;
pub mod tables;
