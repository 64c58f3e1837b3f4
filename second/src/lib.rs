//! A second program for the rules of document 01, written from the document
//! alone and by other methods than passes over tables: reaches that leave
//! something out, a work list ordered by value, and arcs held one by one.

pub mod cases;
pub mod compare;
pub mod cuts;
pub mod distance;
pub mod equations;
pub mod file;
pub mod lent;
pub mod must;
pub mod operations;
pub mod planted;
pub mod random;
pub mod reach;
pub mod replay;
pub mod report;
pub mod samples;
pub mod task;
