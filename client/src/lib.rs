//! A sender's side of `libtable_text.a`: a [`Run`] records calls that are named after const_format's
//! `Formatter`, and is then counted or written whole.
//!
//! ```
//! use table_text::{FormattingFlags, Run};
//!
//! let mut packet = [0; 32];
//! let mut run = Run::new(FormattingFlags::NEW);
//! let mut s = run.debug_struct("Move");
//! s.field("x").write_i32_debug(1200);
//! s.finish();
//! assert_eq!(run.count(), Ok(16));
//! assert_eq!(run.write(&mut packet, 0), Ok(16));
//! assert_eq!(&packet[..16], b"Move { x: 1200 }");
//! ```
//!
//! It is proved of the library: where `count` gives `Ok(total)`, `write` at `p` gives `Ok` exactly if
//! `p + total` is at most the length of the buffer and no string is cut inside a character; and then
//! it leaves exactly the text that was counted. The code of this crate is tested and not proved.

mod error;
mod ffi;
mod flags;
mod formatter;
mod run;

pub use error::{Error, Refused, RunError, Unfinished};
pub use flags::FormattingFlags;
pub use formatter::{Call, DebugList, DebugSet, DebugStruct, DebugTuple, Formatter, SubFormatter};
pub use run::{Each, Run};
