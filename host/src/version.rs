//! The version that the two ends of a channel agree on.

use std::fmt;

use crate::Refusal;

/// What the applications at the two ends agree to speak: 0 to 16 bytes, none of them 0.
///
/// The datagrams that open a channel take any bytes as a version, and the library refuses the unfit ones.
///
/// ```
/// use route::{Refusal, Version};
/// let version = Version::new("receipts-1")?;
/// assert_eq!(version.as_bytes(), b"receipts-1");
/// assert_eq!(Version::new([1; 17]), Err(Refusal::WrongVersion));
/// assert_eq!(Version::new("a\0"), Err(Refusal::WrongVersion));
/// # Ok::<(), Refusal>(())
/// ```
#[derive(Clone, Copy, Debug, Default, PartialEq, Eq, PartialOrd, Ord, Hash)]
pub struct Version([u8; Version::MAX_LENGTH]);

impl Version {
    /// The bytes that a version can have.
    pub const MAX_LENGTH: usize = 16;
    /// The version of no bytes, which the ends of a fresh store have.
    pub const EMPTY: Version = Version([0; Version::MAX_LENGTH]);

    /// The version of these bytes.
    ///
    /// # Errors
    ///
    /// [`Refusal::WrongVersion`] if there are more than 16, or one of them is 0.
    pub fn new(bytes: impl AsRef<[u8]>) -> Result<Version, Refusal> {
        let bytes = bytes.as_ref();
        if bytes.len() > Version::MAX_LENGTH || bytes.contains(&0) {
            return Err(Refusal::WrongVersion);
        }
        let mut padded = Version::EMPTY.0;
        padded[..bytes.len()].copy_from_slice(bytes);
        Ok(Version(padded))
    }

    /// Its bytes, without the zeros behind them.
    pub fn as_bytes(&self) -> &[u8] {
        let length = self.0.iter().position(|byte| *byte == 0);
        &self.0[..length.unwrap_or(Version::MAX_LENGTH)]
    }

    /// As it stands in a channel record, of a fit store.
    pub(crate) fn from_padded(padded: [u8; Version::MAX_LENGTH]) -> Version {
        Version(padded)
    }

    /// With zeros behind it, as in a channel record.
    pub(crate) fn padded(&self) -> &[u8] {
        &self.0
    }
}

impl AsRef<[u8]> for Version {
    fn as_ref(&self) -> &[u8] {
        self.as_bytes()
    }
}

impl fmt::Display for Version {
    /// Its text; bytes that are no text are shown by their numbers.
    fn fmt(&self, out: &mut fmt::Formatter) -> fmt::Result {
        self.as_bytes().escape_ascii().fmt(out)
    }
}
