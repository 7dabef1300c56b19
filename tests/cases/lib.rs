//! Cases for the programs, as data: the source read, clients' requests made and sealed, answers by the second meter.

pub mod calls;
pub mod client;
pub mod clocks;
pub mod exchange;
pub mod fields;
pub mod hexadecimal;
pub mod night;
pub mod plug;
pub mod script;
pub mod source;
pub mod table;
pub mod words;
