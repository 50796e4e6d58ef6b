//! The growing striped volume, written from document 01 and from W4 to W7, W9
//! and W10 of document 02 alone.
//!
//! Everything but `fast` is plain: definitions are followed word for word and
//! searches and counts go over the blocks themselves. `fast` has the same
//! calls with the same checks in closed form.

pub mod fast;
pub mod followed;
pub mod limits;
pub mod lookup;
pub mod plain;
pub mod record;
pub mod refusal;
pub mod sample;
pub mod spans;
pub mod spot;
pub mod state;
pub mod store;
pub mod table;
pub mod tally;
pub mod view;
pub mod window;
