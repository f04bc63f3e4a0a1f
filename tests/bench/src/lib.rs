//! What the measurement compares the library with: a plain writer and plain readers with the same duties; and the
//! lists and streams that they are timed on.

pub mod lists;
pub mod plain;
pub mod streams;
