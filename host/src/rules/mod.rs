//! The second referee: `referee` rules on an order and gives an answer. One small file for each rule, named in the
//! documents' words: `board` is what a position is, `calls` what each of the eight calls does to it.

pub mod board;
pub mod calls;
pub mod order;
pub mod referee;
pub mod refusal;
