//! An independent implementation of the step, made to be fast, and what times it side by side with the proved one.
pub mod bench;
pub mod peer;
