//! The subcommands, a file each: their arguments, and what they do.

pub mod check;
pub mod dropped;
pub mod explain;
pub mod match_lines;
pub mod print;
pub mod same;
pub mod tokens;
pub mod tree;
