//! Strings of a fixed capacity.
use crate::{Record, SmallBytes, TooLong};
use core::cmp::Ordering;
use core::fmt;
use core::hash::{Hash, Hasher};
use core::ops::Deref;

/// A string of up to `N` bytes of UTF-8, which lies in itself: a key of a [`RecordMap`](crate::RecordMap), or a part of a [`Record`].
/// In a record it takes a word for its length, and one for each eight bytes of `N`, however short it is.
///
/// It derefs to `str`.
///
/// ```
/// use vbr::{SmallStr, TooLong};
///
/// let name: SmallStr<16> = SmallStr::new("Käthe")?;
/// assert_eq!((name.as_str(), name.len()), ("Käthe", 6));
/// assert!(name.starts_with('K'));
/// assert_eq!(SmallStr::<5>::new("Käthe"), Err(TooLong { bytes: 6, most: 5 })); // nothing is cut off
/// # Ok::<(), TooLong>(())
/// ```
#[derive(Clone, Copy)]
pub struct SmallStr<const N: usize> {
    bytes: SmallBytes<N>,
}

impl<const N: usize> SmallStr<N> {
    /// The string of this text, whole. It copies the bytes.
    ///
    /// ```
    /// # use vbr::SmallStr;
    /// assert_eq!(SmallStr::<4>::new("port")?, "port");
    /// assert!(SmallStr::<4>::new("ports").is_err());
    /// # Ok::<(), vbr::TooLong>(())
    /// ```
    ///
    /// # Errors
    ///
    /// [`TooLong`], if the text has more than `N` bytes.
    #[inline]
    pub fn new(text: &str) -> Result<SmallStr<N>, TooLong> {
        Ok(SmallStr { bytes: SmallBytes::new(text.as_bytes())? })
    }

    /// The text. It goes once over the bytes, to see that they are UTF-8: what [`Record::load`] makes of any words may have others,
    /// and has an empty text then.
    ///
    /// ```
    /// # use vbr::SmallStr;
    /// assert_eq!(SmallStr::<8>::new("port")?.as_str(), "port");
    /// # Ok::<(), vbr::TooLong>(())
    /// ```
    #[inline]
    #[must_use]
    pub fn as_str(&self) -> &str {
        core::str::from_utf8(self.as_bytes()).unwrap_or_default()
    }

    /// The bytes of the text.
    ///
    /// ```
    /// # use vbr::SmallStr;
    /// assert_eq!(SmallStr::<8>::new("ä")?.as_bytes(), [0xc3, 0xa4]);
    /// # Ok::<(), vbr::TooLong>(())
    /// ```
    #[inline]
    #[must_use]
    pub fn as_bytes(&self) -> &[u8] {
        self.bytes.as_slice()
    }
}

impl<const N: usize> Record for SmallStr<N> {
    const WORDS: usize = SmallBytes::<N>::WORDS;

    #[inline]
    fn store(&self, put: &mut impl FnMut(u64)) {
        self.bytes.store(put);
    }

    #[inline]
    fn load(next: &mut impl FnMut() -> u64) -> SmallStr<N> {
        SmallStr { bytes: Record::load(next) }
    }
}

impl<const N: usize> Deref for SmallStr<N> {
    type Target = str;

    #[inline]
    fn deref(&self) -> &str {
        self.as_str()
    }
}

impl<const N: usize> AsRef<str> for SmallStr<N> {
    fn as_ref(&self) -> &str {
        self
    }
}

/// The empty string.
impl<const N: usize> Default for SmallStr<N> {
    fn default() -> SmallStr<N> {
        SmallStr { bytes: SmallBytes::default() }
    }
}

impl<const N: usize> TryFrom<&str> for SmallStr<N> {
    type Error = TooLong;

    fn try_from(text: &str) -> Result<SmallStr<N>, TooLong> {
        SmallStr::new(text)
    }
}

impl<const N: usize> core::str::FromStr for SmallStr<N> {
    type Err = TooLong;

    fn from_str(text: &str) -> Result<SmallStr<N>, TooLong> {
        SmallStr::new(text)
    }
}

impl<const N: usize> PartialEq for SmallStr<N> {
    #[inline]
    fn eq(&self, other: &SmallStr<N>) -> bool {
        self.as_bytes() == other.as_bytes()
    }
}

impl<const N: usize> Eq for SmallStr<N> {}

impl<const N: usize> PartialEq<str> for SmallStr<N> {
    fn eq(&self, other: &str) -> bool {
        self.as_bytes() == other.as_bytes()
    }
}

impl<const N: usize> PartialEq<&str> for SmallStr<N> {
    fn eq(&self, other: &&str) -> bool {
        self == *other
    }
}

impl<const N: usize> PartialOrd for SmallStr<N> {
    fn partial_cmp(&self, other: &SmallStr<N>) -> Option<Ordering> {
        Some(self.cmp(other))
    }
}

/// By their bytes, as `str` has it.
impl<const N: usize> Ord for SmallStr<N> {
    fn cmp(&self, other: &SmallStr<N>) -> Ordering {
        self.as_bytes().cmp(other.as_bytes())
    }
}

impl<const N: usize> Hash for SmallStr<N> {
    #[inline]
    fn hash<H: Hasher>(&self, state: &mut H) {
        self.as_bytes().hash(state);
    }
}

impl<const N: usize> fmt::Display for SmallStr<N> {
    fn fmt(&self, f: &mut fmt::Formatter<'_>) -> fmt::Result {
        self.as_str().fmt(f)
    }
}

impl<const N: usize> fmt::Debug for SmallStr<N> {
    fn fmt(&self, f: &mut fmt::Formatter<'_>) -> fmt::Result {
        fmt::Debug::fmt(self.as_str(), f)
    }
}
