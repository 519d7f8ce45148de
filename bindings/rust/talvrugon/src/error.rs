use std::fmt;

/// The error of a call. `Display` writes the library's sentence.
#[derive(Clone, Copy, Debug, PartialEq, Eq)]
pub struct Error {
    /// The number of the status, as in `fast.h`.
    pub status: u32,
    /// For a fault of a stream, the number of bytes consumed. For records that are not those of one message, the number of the first that
    /// may not come next.
    pub place: u64,
}

impl Error {
    /// Returns the sentence of the status. It begins with the name of the code and a colon, if there is a code.
    pub fn words(&self) -> String {
        let mut words = vec![0; 256];
        // SAFETY: a buffer and its length, which the library does not exceed.
        let length = unsafe { talvrugon_sys::fast_status_words(self.status, words.as_mut_ptr(), words.len()) };
        words.truncate(length);
        String::from_utf8_lossy(&words).into_owned()
    }

    /// Returns the name of the code, such as `D9`, if there is one.
    pub fn code(&self) -> Option<String> {
        let words = self.words();
        words.split_once(':').map(|(name, _)| name.to_owned())
    }
}

impl fmt::Display for Error {
    fn fmt(&self, f: &mut fmt::Formatter<'_>) -> fmt::Result {
        write!(f, "{} (at {})", self.words(), self.place)
    }
}

impl std::error::Error for Error {}

/// Returns an error unless the status is 0.
pub(crate) fn expect(status: u32) -> Result<(), Error> {
    match status {
        0 => Ok(()),
        status => Err(Error { status, place: 0 }),
    }
}
