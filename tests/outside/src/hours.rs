//! Wish 6's hours: towns with halls that open and close, rows whose outcome is known without the reference,
//! and a stand-in for the functions on networks in which errors are planted.

pub mod planted;
pub mod rows;
mod standin;
pub mod towns;
