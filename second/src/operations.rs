//! Every operation over lent tables, asked of a program under test (the desk)
//! and compared with this program's own answers.

pub mod answer;
pub mod cases;
pub mod compare;
pub mod desk;
pub mod planted;
pub mod request;
