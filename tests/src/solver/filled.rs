//! What a call answers that names no user and fills a buffer.

use super::image::Refused;

/// The number, the extra and the bytes that fill the buffer from its start on, if any do.
#[derive(Clone, Debug, PartialEq, Eq)]
pub struct Filled<Bytes = Vec<u8>> {
    pub number: u64,
    pub extra: u64,
    pub bytes: Option<Bytes>,
}

impl<Bytes> Filled<Bytes> {
    pub fn refused(number: u64, extra: u64) -> Filled<Bytes> {
        Filled { number, extra, bytes: None }
    }

    /// Refused as a check of the image is.
    pub fn as_check(refused: &Refused) -> Filled<Bytes> {
        Filled::refused(refused.number, refused.extra as u64)
    }

    pub fn done(extra: u64, bytes: Bytes) -> Filled<Bytes> {
        Filled { number: 0, extra, bytes: Some(bytes) }
    }

    /// The number that the C interface returns.
    pub fn returned(&self) -> u64 {
        self.number + 256 * self.extra
    }
}
