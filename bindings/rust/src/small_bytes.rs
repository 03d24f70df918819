//! Bytes of a fixed capacity.
use crate::Record;
use core::error::Error;
use core::fmt;
use core::hash::{Hash, Hasher};
use core::ops::Deref;

/// Up to `N` bytes, which lie in itself: a value or a key of a [`RecordMap`](crate::RecordMap) or a [`Cache`](crate::Cache), or a part of
/// a [`Record`]. In a record it takes a word for its length, and one for each eight bytes of `N`, however few it has. A copy copies all
/// `N`, and calls make several on the stack: for tens of kilobytes let a thread have some megabytes of it.
///
/// It derefs to `[u8]`. For text there is [`SmallStr`](crate::SmallStr).
///
/// ```
/// use vbr::{SmallBytes, TooLong};
///
/// let page: SmallBytes<4_096> = SmallBytes::new(b"GIF89a")?;
/// assert_eq!((&page[..3], page.len()), (&b"GIF"[..], 6));
/// assert_eq!(SmallBytes::<5>::new(b"GIF89a"), Err(TooLong { bytes: 6, most: 5 })); // nothing is cut off
/// # Ok::<(), TooLong>(())
/// ```
#[derive(Clone, Copy)]
pub struct SmallBytes<const N: usize> {
    length: usize,
    bytes: [u8; N],
}

/// Why a text isn't made a [`SmallStr`](crate::SmallStr), or bytes a [`SmallBytes`].
///
// %doc too_long
/// There are more bytes than there is room for.
// %end
///
/// ```
/// # use vbr::SmallStr;
/// let why = "harbour".parse::<SmallStr<4>>().unwrap_err();
/// assert_eq!(why.to_string(), "there are 7 bytes, and there is room for 4");
/// ```
#[derive(Clone, Copy, Debug, PartialEq, Eq, Hash)]
pub struct TooLong {
    /// How many bytes there are.
    pub bytes: usize,
    /// How many there is room for.
    pub most: usize,
}

impl<const N: usize> SmallBytes<N> {
    /// These bytes, all of them, copied.
    ///
    /// ```
    /// # use vbr::SmallBytes;
    /// assert_eq!(SmallBytes::<4>::new(&[7, 8])?, [7, 8]);
    /// assert!(SmallBytes::<4>::new(&[7; 5]).is_err());
    /// # Ok::<(), vbr::TooLong>(())
    /// ```
    ///
    /// # Errors
    ///
    /// [`TooLong`], if they are more than `N`.
    #[inline]
    pub fn new(from: &[u8]) -> Result<SmallBytes<N>, TooLong> {
        let mut bytes = [0; N];
        let room = bytes.get_mut(..from.len()).ok_or(TooLong { bytes: from.len(), most: N })?;
        room.copy_from_slice(from);
        Ok(SmallBytes { length: from.len(), bytes })
    }

    /// The bytes.
    ///
    /// ```
    /// # use vbr::SmallBytes;
    /// assert_eq!(SmallBytes::<4>::new(&[7, 8])?.as_slice(), [7, 8]);
    /// # Ok::<(), vbr::TooLong>(())
    /// ```
    #[inline]
    #[must_use]
    pub fn as_slice(&self) -> &[u8] {
        &self.bytes[..self.length]
    }
}

impl<const N: usize> Record for SmallBytes<N> {
    const WORDS: usize = 1 + <[u8; N]>::WORDS;

    #[inline]
    fn store(&self, put: &mut impl FnMut(u64)) {
        self.length.store(put);
        self.bytes.store(put);
    }

    #[inline]
    fn load(next: &mut impl FnMut() -> u64) -> SmallBytes<N> {
        SmallBytes { length: usize::load(next).min(N), bytes: Record::load(next) }
    }
}

impl<const N: usize> Deref for SmallBytes<N> {
    type Target = [u8];

    #[inline]
    fn deref(&self) -> &[u8] {
        self.as_slice()
    }
}

impl<const N: usize> AsRef<[u8]> for SmallBytes<N> {
    fn as_ref(&self) -> &[u8] {
        self
    }
}

/// No bytes.
impl<const N: usize> Default for SmallBytes<N> {
    fn default() -> SmallBytes<N> {
        SmallBytes { length: 0, bytes: [0; N] }
    }
}

impl<const N: usize> TryFrom<&[u8]> for SmallBytes<N> {
    type Error = TooLong;

    fn try_from(bytes: &[u8]) -> Result<SmallBytes<N>, TooLong> {
        SmallBytes::new(bytes)
    }
}

impl<const N: usize> PartialEq for SmallBytes<N> {
    #[inline]
    fn eq(&self, other: &SmallBytes<N>) -> bool {
        self.as_slice() == other.as_slice()
    }
}

impl<const N: usize> Eq for SmallBytes<N> {}

impl<const N: usize> PartialEq<[u8]> for SmallBytes<N> {
    fn eq(&self, other: &[u8]) -> bool {
        self.as_slice() == other
    }
}

impl<const N: usize, const M: usize> PartialEq<[u8; M]> for SmallBytes<N> {
    fn eq(&self, other: &[u8; M]) -> bool {
        self.as_slice() == other
    }
}

impl<const N: usize> Hash for SmallBytes<N> {
    #[inline]
    fn hash<H: Hasher>(&self, state: &mut H) {
        self.as_slice().hash(state);
    }
}

impl<const N: usize> fmt::Debug for SmallBytes<N> {
    fn fmt(&self, f: &mut fmt::Formatter<'_>) -> fmt::Result {
        fmt::Debug::fmt(self.as_slice(), f)
    }
}

impl fmt::Display for TooLong {
    fn fmt(&self, f: &mut fmt::Formatter<'_>) -> fmt::Result {
        write!(f, "there are {} bytes, and there is room for {}", self.bytes, self.most)
    }
}

impl Error for TooLong {}
