//! The functions of `libfast_c.a`, as declared in `include/fast.h`, and the heap that the library needs, on Rust's global allocator.
//!
//! The crate `talvrugon` is the safe interface. Nothing here is proved; the header says what each call requires.
#![no_std]
extern crate alloc;

use core::mem::{offset_of, size_of};

mod heap;

/// The value that [`fast_interface`] has to return.
pub const INTERFACE: u32 = 2;

/// An event of fixed size (`fast_record`).
#[repr(C)]
#[derive(Clone, Copy, Debug, Default, PartialEq, Eq)]
pub struct Record {
    pub kind: u32,
    pub node: u32,
    pub value: u64,
    pub length: u32,
    pub exponent: i32,
}

/// The result of a feed (`fast_fed`).
#[repr(C)]
#[derive(Clone, Copy, Debug, Default, PartialEq, Eq)]
pub struct Fed {
    pub taken: u64,
    pub records: u64,
    pub texts: u64,
    pub consumed: u64,
    pub between: u32,
    pub status: u32,
}

/// The result of encoding a message (`fast_put`).
#[repr(C)]
#[derive(Clone, Copy, Debug, Default, PartialEq, Eq)]
pub struct Put {
    pub waiting: u64,
    pub record: u64,
    pub status: u32,
    pub unused: u32,
}

/// The number of no template, node or entry (`FAST_NONE`).
pub const NONE: u32 = u32::MAX;

/// A template (`fast_template_info`).
#[repr(C)]
#[derive(Clone, Copy, Debug, Default, PartialEq, Eq)]
pub struct TemplateInfo {
    pub has_id: u32,
    pub id: u32,
    pub reset: u32,
}

/// The instruction of a node (`fast_node_info`).
#[repr(C)]
#[derive(Clone, Copy, Debug, Default, PartialEq, Eq)]
pub struct NodeInfo {
    pub kind: u32,
    pub optional: u32,
    pub op: u32,
    pub entry: u32,
    pub mantissa_op: u32,
    pub mantissa_entry: u32,
}

/// The part of a stream that a decoder waits for (`fast_due`).
#[repr(C)]
#[derive(Clone, Copy, Debug, Default, PartialEq, Eq)]
pub struct Due {
    pub what: u32,
    pub node: u32,
}

const _: () = {
    assert!(size_of::<usize>() == 8);
    assert!(size_of::<TemplateInfo>() == 12 && size_of::<NodeInfo>() == 24 && size_of::<Due>() == 8);
    assert!(size_of::<Record>() == 24 && offset_of!(Record, value) == 8 && offset_of!(Record, exponent) == 20);
    assert!(size_of::<Fed>() == 40 && offset_of!(Fed, status) == 36);
    assert!(size_of::<Put>() == 24 && offset_of!(Put, status) == 16);
};

macro_rules! opaque {
    ($($name:ident)*) => {$(
        /// The type of a pointer of the library.
        #[repr(C)]
        pub struct $name {
            unseen: [u8; 0],
            // Makes the type neither `Send` nor `Sync`.
            here: core::marker::PhantomData<*mut ()>,
        }
    )*};
}
opaque!(Set Decoder Encoder);

/// A pointer of the library, passed by value together with the ownership of its target.
#[repr(transparent)]
#[derive(Debug)]
pub struct Handle<T>(pub *mut T);

extern "C" {
    pub fn fast_interface() -> u32;
    pub fn fast_status_words(status: u32, out: *mut u8, out_len: usize) -> usize;
    pub fn fast_set_read(text: *const u8, text_len: usize, out: *mut *mut Set) -> u32;
    pub fn fast_set_close(set: Handle<Set>);
    pub fn fast_set_templates(set: Handle<Set>) -> u32;
    pub fn fast_set_nodes(set: Handle<Set>) -> u32;
    pub fn fast_template_name(set: Handle<Set>, number: u32, out: *mut u8, out_len: usize) -> usize;
    pub fn fast_node_name(set: Handle<Set>, number: u32, out: *mut u8, out_len: usize) -> usize;
    pub fn fast_set_entries(set: Handle<Set>) -> u32;
    pub fn fast_set_depth(set: Handle<Set>) -> u32;
    pub fn fast_set_cap(set: Handle<Set>, max_elements: u32, max_total: u32) -> u64;
    pub fn fast_template_by_id(set: Handle<Set>, id: u32) -> u32;
    pub fn fast_template_by_name(set: Handle<Set>, name: *const u8, name_len: usize) -> u32;
    pub fn fast_template_describe(set: Handle<Set>, number: u32, out: *mut TemplateInfo) -> u32;
    pub fn fast_node_describe(set: Handle<Set>, number: u32, out: *mut NodeInfo) -> u32;
    pub fn fast_template_body(set: Handle<Set>, number: u32, out: *mut u32, out_len: usize) -> usize;
    pub fn fast_node_body(set: Handle<Set>, number: u32, out: *mut u32, out_len: usize) -> usize;
    pub fn fast_template_child(set: Handle<Set>, number: u32, name: *const u8, name_len: usize) -> u32;
    pub fn fast_node_child(set: Handle<Set>, number: u32, name: *const u8, name_len: usize) -> u32;
    pub fn fast_node_parent(set: Handle<Set>, number: u32) -> u32;
    pub fn fast_node_template(set: Handle<Set>, number: u32) -> u32;
    pub fn fast_decoder_due(decoder: Handle<Decoder>, due: *mut Due);
    pub fn fast_decoder_open(
        set: Handle<Set>,
        strict: u32,
        max_text: u32,
        max_elements: u32,
        max_total: u32,
        out: *mut *mut Decoder,
    ) -> u32;
    pub fn fast_decoder_feed(
        decoder: Handle<Decoder>,
        back: *mut *mut Decoder,
        piece: *const u8,
        piece_len: usize,
        records: *mut Record,
        records_len: usize,
        texts: *mut u8,
        texts_len: usize,
        fed: *mut Fed,
    );
    pub fn fast_decoder_packet(
        decoder: Handle<Decoder>,
        back: *mut *mut Decoder,
        start: u32,
        packet: *const u8,
        packet_len: usize,
        records: *mut Record,
        records_len: usize,
        texts: *mut u8,
        texts_len: usize,
        fed: *mut Fed,
    );
    pub fn fast_decoder_reset(decoder: Handle<Decoder>, back: *mut *mut Decoder);
    pub fn fast_decoder_close(decoder: Handle<Decoder>);
    pub fn fast_encoder_open(
        set: Handle<Set>,
        max_text: u32,
        max_elements: u32,
        max_total: u32,
        out: *mut *mut Encoder,
    ) -> u32;
    pub fn fast_encoder_put(
        encoder: Handle<Encoder>,
        back: *mut *mut Encoder,
        records: *const Record,
        records_len: usize,
        texts: *const u8,
        texts_len: usize,
        put: *mut Put,
    );
    pub fn fast_encoder_take(encoder: Handle<Encoder>, back: *mut *mut Encoder, out: *mut u8, out_len: usize) -> usize;
    pub fn fast_encoder_reset(encoder: Handle<Encoder>, back: *mut *mut Encoder);
    pub fn fast_encoder_close(encoder: Handle<Encoder>);
}
