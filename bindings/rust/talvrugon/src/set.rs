use crate::error::{expect, Error};
use crate::forms::Forms;
use std::ptr::{null_mut, NonNull};
use std::sync::{Arc, OnceLock};
use talvrugon_sys::Handle;

/// The limits of a decoder or an encoder.
#[derive(Clone, Copy, Debug, PartialEq, Eq)]
pub struct Limits {
    /// Strict mode: an encoding that is longer than it needs to be is a fault.
    pub strict: bool,
    /// The greatest length of a string in bytes, 16 to 1,048,576.
    pub max_text: u32,
    /// The greatest number of elements of one sequence.
    pub max_elements: u32,
    /// The greatest number of elements of all sequences of one message.
    pub max_total: u32,
}

impl Default for Limits {
    fn default() -> Limits {
        Limits { strict: false, max_text: 1024, max_elements: 1000, max_total: 1000 }
    }
}

/// A template set, which threads may share. Clones share one set, which is closed with the last of them and of the decoders and encoders made from it.
#[derive(Clone, Debug)]
pub struct Set(Arc<Owned>, Arc<OnceLock<Arc<Forms>>>);

#[derive(Debug)]
struct Owned(NonNull<talvrugon_sys::Set>);

// SAFETY: the set is `Send` and `Sync`, by the proofs of `set_crosses_threads` in crates/fast_template and `handles_cross_threads` in
// crates/fast_c. No call changes it, and any thread may close it.
unsafe impl Send for Owned {}
unsafe impl Sync for Owned {}

impl Drop for Owned {
    fn drop(&mut self) {
        // SAFETY: `fast_set_read` made the set, only this closes it, and nothing borrows it any more.
        unsafe { talvrugon_sys::fast_set_close(Handle(self.0.as_ptr())) }
    }
}

impl Set {
    /// Reads a template set from its TOML text.
    pub fn read(text: &str) -> Result<Set, Error> {
        // SAFETY: the call has no buffers.
        let is_built_with = unsafe { talvrugon_sys::fast_interface() };
        assert_eq!(is_built_with, talvrugon_sys::INTERFACE, "libfast_c.a is of another build");
        let mut set = null_mut();
        // SAFETY: a slice, and a pointer that is valid for a write.
        expect(unsafe { talvrugon_sys::fast_set_read(text.as_ptr(), text.len(), &mut set) })?;
        Ok(Set(Arc::new(Owned(NonNull::new(set).expect("a set was made"))), Arc::default()))
    }

    pub(crate) fn handle(&self) -> Handle<talvrugon_sys::Set> {
        Handle(self.0 .0.as_ptr())
    }

    /// Returns the form of its messages, which is made at the first call.
    pub(crate) fn forms(&self) -> Arc<Forms> {
        self.1.get_or_init(|| Arc::new(Forms::new(self))).clone()
    }

    /// Returns the number of templates.
    pub fn templates(&self) -> u32 {
        // SAFETY: the set is open.
        unsafe { talvrugon_sys::fast_set_templates(self.handle()) }
    }

    /// Returns the number of nodes: fields, groups and sequences.
    pub fn nodes(&self) -> u32 {
        // SAFETY: the set is open.
        unsafe { talvrugon_sys::fast_set_nodes(self.handle()) }
    }

    /// Returns the name of a template; `None` if the set has no template of this number.
    pub fn template_name(&self, template: u32) -> Option<String> {
        // SAFETY: the set is open, and the buffer has this length.
        named(|to, len| unsafe { talvrugon_sys::fast_template_name(self.handle(), template, to, len) })
    }

    /// Returns the name of a node; `None` if the set has no node of this number.
    pub fn node_name(&self, node: u32) -> Option<String> {
        // SAFETY: the set is open, and the buffer has this length.
        named(|to, len| unsafe { talvrugon_sys::fast_node_name(self.handle(), node, to, len) })
    }
}

/// Returns a name, by a call that writes it and returns its length: names have 1 to 64 bytes.
fn named(write: impl Fn(*mut u8, usize) -> usize) -> Option<String> {
    let mut name = vec![0; 64];
    let length = write(name.as_mut_ptr(), name.len());
    name.truncate(length);
    String::from_utf8(name).ok().filter(|it| !it.is_empty())
}
