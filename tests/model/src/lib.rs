//! A plain and slow model of document 01 and of document 02's orders as they land, written from
//! the documents and not from the code, with a generator of images and files and a comparison of
//! any library against the model.
#![forbid(unsafe_code)]

// The machine.
pub mod chain;
pub mod check;
pub mod collect;
pub mod every_chain;
pub mod figures;
pub mod held;
pub mod image;
pub mod look_up;
pub mod reached;
pub mod readable;
pub mod refer;
pub mod refusal;
pub mod role;
pub mod step_back;
pub mod word;

// Files and texts.
pub mod freeze;
pub mod listing;
pub mod month;
pub mod record;
pub mod text;
pub mod thaw;
pub mod why;

// Random images, and the comparisons.
pub mod antt;
pub mod compare;
pub mod generate;
pub mod program;
pub mod random;
