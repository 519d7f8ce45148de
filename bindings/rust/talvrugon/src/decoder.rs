use crate::error::{expect, Error};
use crate::event::{event_of, Event};
use crate::set::{Limits, Set};
use std::ptr::{null_mut, NonNull};
use talvrugon_sys::{Due, Fed, Handle, Record};

/// The number of records in a room (96 KiB).
const RECORDS: usize = 4096;
/// The least size of a room's buffer of strings, in bytes.
const TEXTS: usize = 65536;

/// Buffers for the records of one call and their strings, allocated on first use. One room can serve any number of decoders
/// ([`Decoder::feed_in`]).
#[derive(Debug, Default)]
pub struct Room {
    records: Vec<Record>,
    texts: Vec<u8>,
}

impl Room {
    /// Makes room for a string of `max_text` bytes.
    fn hold(&mut self, max_text: usize) {
        if self.records.len() < RECORDS {
            self.records.resize(RECORDS, Record::default());
        }
        if self.texts.len() < max_text.max(TEXTS) {
            self.texts.resize(max_text.max(TEXTS), 0);
        }
    }
}

/// How a packet starts (`fast_start`).
#[derive(Clone, Copy, Debug, PartialEq, Eq)]
pub enum Start {
    /// With the dictionary that the previous packet left.
    Continue = 0,
    /// With a new dictionary.
    Reset = 1,
}

/// The part of a stream that a decoder waits for (`fast_awaited`).
#[derive(Clone, Copy, Debug, PartialEq, Eq)]
pub enum InHand {
    /// The presence map or the identifier of a message, or the end of a group or an element.
    Message,
    /// The presence map of the group or the element that has begun.
    Map,
    /// The instruction of this node.
    Node(u32),
}

/// A decoder of a stream that comes in pieces, split anywhere. It keeps its set open, and is closed when it is dropped.
#[derive(Debug)]
pub struct Decoder {
    at: NonNull<talvrugon_sys::Decoder>,
    room: Room,
    max_text: usize,
    last: Fed,
    // Borrowed by `at`, so dropped after it.
    _set: Set,
}

impl Decoder {
    /// Makes a decoder of streams under a set, before the first byte.
    ///
    /// # Errors
    ///
    /// `max_text` is out of range, an initial value of the set is longer than it, or an allocation failed: statuses 201, 202 and 204.
    pub fn new(set: &Set, limits: Limits) -> Result<Decoder, Error> {
        let Limits { strict, max_text, max_elements, max_total } = limits;
        let mut at = null_mut();
        // SAFETY: the set is open, and outlives the decoder; `at` is valid for a write.
        expect(unsafe {
            talvrugon_sys::fast_decoder_open(set.handle(), u32::from(strict), max_text, max_elements, max_total, &mut at)
        })?;
        Ok(Decoder {
            at: NonNull::new(at).expect("a decoder was made"),
            room: Room::default(),
            max_text: max_text as usize,
            last: Fed { between: 1, ..Fed::default() },
            _set: set.clone(),
        })
    }

    /// Feeds a piece, which is read only during the call, and passes its events to `take`. Their strings are borrowed for that call of
    /// `take`.
    ///
    /// # Errors
    ///
    /// The stream has a fault: statuses from 101; `place` is the number of bytes consumed. The events before it were emitted. Each further
    /// feed returns the same error, until a reset.
    ///
    /// This function is generic, so that the loop over the records is compiled with `take`.
    pub fn feed(&mut self, piece: &[u8], take: impl FnMut(Event<'_>)) -> Result<(), Error> {
        let mut room = std::mem::take(&mut self.room);
        let end = self.feed_in(&mut room, piece, take);
        self.room = room;
        end
    }

    /// Feeds a piece as [`Decoder::feed`] does, with borrowed buffers: a program with thousands of decoders can use one room for all.
    ///
    /// # Errors
    ///
    /// Those of [`Decoder::feed`].
    pub fn feed_in(&mut self, room: &mut Room, piece: &[u8], take: impl FnMut(Event<'_>)) -> Result<(), Error> {
        self.run(room, piece, None, take)
    }

    /// Decodes one packet, which must end between two messages, and passes its events to `take`.
    ///
    /// # Errors
    ///
    /// Those of [`Decoder::feed`]; and status 6 if the packet ends inside a message. Then `place` is the number of bytes consumed, and each
    /// further call returns this error, until a reset or a packet that starts with one.
    pub fn packet(&mut self, packet: &[u8], start: Start, take: impl FnMut(Event<'_>)) -> Result<(), Error> {
        let mut room = std::mem::take(&mut self.room);
        let end = self.run(&mut room, packet, Some(start), take);
        self.room = room;
        end
    }

    fn run(
        &mut self,
        room: &mut Room,
        piece: &[u8],
        mut start: Option<Start>,
        mut take: impl FnMut(Event<'_>),
    ) -> Result<(), Error> {
        room.hold(self.max_text);
        let mut rest = piece;
        loop {
            let fed = self.feed_once(room, rest, start);
            for record in &room.records[..fed.records as usize] {
                take(event_of(record, &room.texts));
            }
            rest = &rest[fed.taken as usize..];
            start = start.map(|_| Start::Continue);
            match fed.status {
                0 => return Ok(()),
                1 => {}
                status => return Err(Error { status, place: fed.consumed }),
            }
        }
    }

    fn feed_once(&mut self, room: &mut Room, piece: &[u8], start: Option<Start>) -> Fed {
        let mut back = self.at.as_ptr();
        let (records, texts) = (room.records.as_mut_ptr(), room.texts.as_mut_ptr());
        let (records_len, texts_len) = (room.records.len(), room.texts.len());
        let (bytes, len, last) = (piece.as_ptr(), piece.len(), &mut self.last);
        // SAFETY: the decoder is open, and no other call uses it; the slices do not overlap.
        unsafe {
            let decoder = Handle(back);
            match start {
                None => talvrugon_sys::fast_decoder_feed(decoder, &mut back, bytes, len, records, records_len, texts, texts_len, last),
                Some(start) => talvrugon_sys::fast_decoder_packet(
                    decoder, &mut back, start as u32, bytes, len, records, records_len, texts, texts_len, last,
                ),
            }
        }
        self.last
    }

    /// Returns whether the stream is between two messages and has no fault.
    pub fn between(&self) -> bool {
        self.last.between != 0
    }

    /// Returns what the decoder waits for; at a fault, the instruction at which it has stopped.
    pub fn in_hand(&self) -> InHand {
        let mut due = Due::default();
        // SAFETY: the decoder is open and stays as it is; `due` is a place for the struct
        unsafe { talvrugon_sys::fast_decoder_due(Handle(self.at.as_ptr()), &mut due) };
        match due.what {
            0 => InHand::Message,
            1 => InHand::Map,
            _ => InHand::Node(due.node),
        }
    }

    /// Returns the number of bytes consumed since the decoder was made or reset.
    pub fn consumed(&self) -> u64 {
        self.last.consumed
    }

    /// Resets the decoder to the state in which it was made.
    pub fn reset(&mut self) {
        let mut back = self.at.as_ptr();
        // SAFETY: the decoder is open, and no other call uses it.
        unsafe { talvrugon_sys::fast_decoder_reset(Handle(back), &mut back) };
        self.last = Fed { between: 1, ..Fed::default() };
    }
}

// SAFETY: the decoder is `Send`, by the proofs of `decoder_crosses_threads` in crates/fast_decoder and `handles_cross_threads` in
// crates/fast_c. This type is not `Sync`, so only one call at a time uses it.
unsafe impl Send for Decoder {}

impl Drop for Decoder {
    fn drop(&mut self) {
        // SAFETY: `fast_decoder_open` made the decoder, and only this closes it.
        unsafe { talvrugon_sys::fast_decoder_close(Handle(self.at.as_ptr())) }
    }
}
