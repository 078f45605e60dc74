//! The model: document 01, with of document 02, in its plainest
//! form.

pub mod auction;
pub mod calls;
pub mod check;
pub mod compare;
pub mod count;
pub mod hungarian;
pub mod matching;
pub mod refusal;
pub mod sound;
pub mod text;
