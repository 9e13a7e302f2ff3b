//! What the tests from outside compare with, the papers in plain code, and the inputs that they compare on.
pub mod big;
pub mod ends;
pub mod free;
pub mod holding;
pub mod input;
pub mod loads;
pub mod lots;
pub mod plain;
pub mod play;
pub mod price;
pub mod random;
pub mod ranges;
pub mod stamp;
pub mod store;
pub mod unbound;
