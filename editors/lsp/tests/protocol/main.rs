//! The server driven through pipes.

mod answers;
mod client;
mod edits;
mod life;
mod places;
