use crate::error::{expect, Error};
use crate::event::{record_of, Event};
use crate::message::{EncodeError, Message};
use crate::set::{Limits, Set};
use std::ptr::{null_mut, NonNull};
use talvrugon_sys::{Handle, Put, Record};

/// The events of one message, for an encoder. It owns copies of their strings.
#[derive(Clone, Debug, Default, PartialEq, Eq)]
pub struct Records {
    records: Vec<Record>,
    texts: Vec<u8>,
}

impl Records {
    /// Adds an event.
    pub fn push(&mut self, event: Event<'_>) {
        let (record, text) = record_of(event, self.texts.len() as u64);
        self.records.push(record);
        self.texts.extend_from_slice(text);
    }
}

/// An encoder of messages. It keeps its set open, and is closed when it is dropped.
#[derive(Debug)]
pub struct Encoder {
    at: NonNull<talvrugon_sys::Encoder>,
    // Borrowed by `at`, so dropped after it.
    set: Set,
}

impl Encoder {
    /// Makes an encoder for the messages of a set, with an empty dictionary. All limits but `strict` apply.
    ///
    /// # Errors
    ///
    /// `max_text` is out of range, an initial value of the set is longer than it, or an allocation failed: statuses 201, 202 and 204.
    pub fn new(set: &Set, limits: Limits) -> Result<Encoder, Error> {
        let mut at = null_mut();
        // SAFETY: the set is open, and outlives the encoder; `at` is valid for a write.
        expect(unsafe {
            talvrugon_sys::fast_encoder_open(set.handle(), limits.max_text, limits.max_elements, limits.max_total, &mut at)
        })?;
        Ok(Encoder { at: NonNull::new(at).expect("an encoder was made"), set: set.clone() })
    }

    /// Encodes one message, from its start to its end, and appends its bytes to `out`. The message is read only during the call. On an
    /// error, the encoder and `out` are unchanged.
    ///
    /// # Errors
    ///
    /// Status 5 if the events are not those of one message; `place` is the number of the event that may not come next. From 401 the codes
    /// E1 to E4 and R9; 406 if an allocation failed.
    pub fn encode(&mut self, message: &Records, out: &mut Vec<u8>) -> Result<(), Error> {
        let Records { records, texts } = message;
        let mut put = Put::default();
        let mut back = self.at.as_ptr();
        // SAFETY: the encoder is open, and no other call uses it; the slices do not overlap.
        unsafe {
            talvrugon_sys::fast_encoder_put(
                Handle(back),
                &mut back,
                records.as_ptr(),
                records.len(),
                texts.as_ptr(),
                texts.len(),
                &mut put,
            );
        }
        if put.status != 0 {
            return Err(Error { status: put.status, place: put.record });
        }
        let before = out.len();
        out.resize(before + put.waiting as usize, 0);
        let room = &mut out[before..];
        // SAFETY: the encoder is open, and no other call uses it.
        unsafe { talvrugon_sys::fast_encoder_take(Handle(back), &mut back, room.as_mut_ptr(), room.len()) };
        Ok(())
    }

    /// Encodes one message by name, and appends its bytes to `out`. Each mandatory field needs a value, constants too. The fields may be in any
    /// order, and integers signed or unsigned. On an error, the encoder and `out` are unchanged.
    ///
    /// # Errors
    ///
    /// [`EncodeError::Invalid`] if the message does not suit its template, with the path of the field and what is expected; otherwise those of
    /// [`Encoder::encode`].
    pub fn encode_message(&mut self, message: &Message, out: &mut Vec<u8>) -> Result<(), EncodeError> {
        let records = self.set.forms().records(message)?;
        Ok(self.encode(&records, out)?)
    }

    /// Resets the encoder to the state in which it was made. The reader's decoder must be reset at the same point of the stream.
    pub fn reset(&mut self) {
        let mut back = self.at.as_ptr();
        // SAFETY: the encoder is open, and no other call uses it.
        unsafe { talvrugon_sys::fast_encoder_reset(Handle(back), &mut back) };
    }
}

// SAFETY: the encoder is `Send`, by the proofs of `encoder_crosses_threads` in crates/fast_encoder and `handles_cross_threads` in
// crates/fast_c. This type is not `Sync`, so only one call at a time uses it.
unsafe impl Send for Encoder {}

impl Drop for Encoder {
    fn drop(&mut self) {
        // SAFETY: `fast_encoder_open` made the encoder, and only this closes it.
        unsafe { talvrugon_sys::fast_encoder_close(Handle(self.at.as_ptr())) }
    }
}
