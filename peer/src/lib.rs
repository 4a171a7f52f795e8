//! An independent witness for the settings codec: the rules of document 01 and of Rec. ITU-T X.696, written a second
//! time, in plain Rust with a heap and with values as trees. It shares no code with the codec that it is compared with.
//!
//! Start with [`operations`]: the eight operations. A table is checked and becomes [`table::Table`]; a message or a
//! value list is read to a [`value::Value`]; a value is written as octets or as a value list.

pub mod builder;
#[cfg(feature = "c_face")]
pub mod c_face;
pub mod cases;
pub mod generate;
pub mod list;
pub mod named;
pub mod numbers;
pub mod operations;
pub mod path;
pub mod random;
pub mod read;
pub mod reply;
pub mod table;
pub mod value;
pub mod write;
