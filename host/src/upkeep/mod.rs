//! Files of the project outside `host/` that a program makes or checks. No part of the second referee.

pub mod believed;
pub mod samples;
