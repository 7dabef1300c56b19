//! A second meter, written from document 01, the change requests and the standards, to be held against the library call
//! by call.
//!
//! It shares no code with the project's crates and goes other ways where there is a choice: values are trees, envelopes
//! and frames are built in vectors, the substitution of AES is worked out, the check and the field product go bit by bit,
//! clocks are compared by their bytes.

pub mod acse;
pub mod aes;
pub mod bytes;
pub mod check;
pub mod clock;
pub mod envelope;
pub mod explanation;
pub mod frame;
pub mod gcm;
pub mod given;
pub mod image;
#[path = "../../embedding/layout.rs"]
pub mod layout;
pub mod library;
pub mod meter;
pub mod objects;
pub mod receive;
pub mod request;
pub mod soundness;
pub mod transfer;
pub mod value;
