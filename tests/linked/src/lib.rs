//! The proved call and the reference in one process: `fuzz` compares them, `times` measures them.

pub mod changes;
pub mod clock;
pub mod input;
pub mod measure;
pub mod novelty;
pub mod watched;
