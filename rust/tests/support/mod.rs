//! What the tests share: the reference and random inputs.
#![allow(dead_code)]
pub mod inputs;
pub mod random;
pub mod reference;
