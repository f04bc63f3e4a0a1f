//! A second, deliberately naive program for document 01, written from the papers alone, to compare the product with.

pub mod cases;
pub mod naive;
pub mod random;
