//! Inputs for the comparison and the sample: most of them near a limit of document 01, or made to reach an answer.

pub mod models;
pub mod quotes;
pub mod tables;
