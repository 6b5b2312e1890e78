//! What `bench/` takes from the second program: the plain reading of shares, and the tools
//! to try a program with.

pub mod options;
pub mod pipe;
pub mod random;
pub mod refusal;
pub mod shares;
