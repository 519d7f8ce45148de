//! A decoder and an encoder of FAST 1.1 streams, proved in Rattle, over `libfast_c.a`.
//!
//! ```no_run
//! use talvrugon::{Decoder, Event, Limits, Set};
//!
//! let set = Set::read("[[template]] ..")?;
//! let mut decoder = Decoder::new(&set, Limits::default())?;
//! let mut messages = 0;
//! decoder.feed(b"..", |event| messages += u64::from(matches!(event, Event::MessageEnd { .. })))?;
//! # Ok::<(), talvrugon::Error>(())
//! ```
//!
//! [`MessageDecoder`] makes a [`Message`] of each message, whose fields are found by name:
//!
//! ```no_run
//! # let set = talvrugon::Set::read("")?;
//! use talvrugon::{Limits, MessageDecoder};
//!
//! let mut decoder = MessageDecoder::new(&set, Limits::default())?;
//! decoder.feed(b"..", |book| println!("{:?}", book["MDEntries"][0]["MDEntryPx"].as_decimal()))?;
//! # Ok::<(), talvrugon::Error>(())
//! ```
//!
//! The library is proved; this crate is not. Its `unsafe` is in calls of `talvrugon-sys`, and in `Send` and `Sync`, each with the reason
//! why it is sound. Threads may share a [`Set`]; a [`Decoder`] or an [`Encoder`] may move between threads.

mod decoder;
mod encoder;
mod error;
mod event;
mod forms;
pub mod message;
mod messages;
mod query;
mod set;

pub use decoder::{Decoder, InHand, Room, Start};
pub use encoder::{Encoder, Records};
pub use error::Error;
pub use event::{Event, Value};
pub use message::{EncodeError, Message};
pub use messages::MessageDecoder;
pub use query::{Node, Operator, Template, Type, Use};
pub use set::{Limits, Set};
