//! Arrays of the Arrow C data interface: owners that release once, checks, and views of checked arrays.
//!
//! ```no_run
//! use arrow2_proved::c_data::{ArrowArrayStream, Stream};
//!
//! # fn open() -> ArrowArrayStream { unimplemented!() }
//! // SAFETY: the stream comes from a library that follows the interface.
//! let mut stream = unsafe { Stream::from_raw(open()) };
//! while let Some(batch) = stream.next_batch().unwrap() {
//!     let view = batch.check().map_err(|rejected| rejected.broken).unwrap();
//!     println!("{} rows", view.len());
//! }
//! ```

mod abi;
mod check;
mod layout;
mod owned;
mod view;

pub use abi::{ArrowArray, ArrowArrayStream, ArrowSchema};
pub use check::{Broken, MAX_ARRAYS, MAX_DEPTH, Path, Rejected, check_raw};
pub use layout::{Kind, Layout};
pub use owned::{Array, Schema, Stream, StreamError};
pub use view::{Offsets, View};
