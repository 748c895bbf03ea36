//! Bytes as words.

/// Bytes shown as 32-bit words, for the state or the directory of a store in a mapping.
///
/// The words have the machine's byte order; up to three bytes behind the last whole word are left alone. The bytes are
/// of any kind that shows them by [`AsRef`], and the words can be written where the bytes can, by [`AsMut`].
///
/// The bytes begin at a multiple of 4, which those of a mapping do, and stay there: a type whose bytes move with it, as
/// an array, has no place here. Bytes that begin elsewhere later show no word, so that calls on the store are refused.
///
/// ```
/// use mdeh::{Shape, Store, Words, STATE_WORDS};
///
/// # let mut memory = vec![0; 4099];
/// # let start = memory.as_ptr().align_offset(4);
/// # let mapping: &mut [u8] = &mut memory[start..][..4096];
/// // `mapping` is 4,096 bytes: the state, 256 directory words, and the pages
/// let (state, others) = mapping.split_at_mut(4 * STATE_WORDS);
/// let (directory, pages) = others.split_at_mut(4 * 256);
/// let (state, directory) = (Words::new(state).unwrap(), Words::new(directory).unwrap());
/// let mut store = Store::fresh(Shape::new(&[7, 5], 16), state, directory, pages)?;
/// store.insert([30, 2], 7)?;
///
/// assert_eq!(mapping[..8], [2, 0, 0, 0, 7, 0, 0, 0]); // two attributes, the first of 7 bits
/// # Ok::<(), mdeh::Refusal>(())
/// ```
#[derive(Clone, Debug)]
pub struct Words<B> {
    bytes: B,
}

impl<B: AsRef<[u8]>> Words<B> {
    /// These bytes as words; none where they do not begin at a multiple of 4.
    ///
    /// ```
    /// use mdeh::Words;
    ///
    /// let bytes = [7u8; 8];
    /// let start = bytes.as_ptr().align_offset(4);
    /// assert_eq!(Words::new(&bytes[start..start + 4]).unwrap().as_ref(), [0x0707_0707]);
    /// assert!(Words::new(&bytes[start + 1..]).is_none());
    /// ```
    #[inline]
    #[must_use]
    pub fn new(bytes: B) -> Option<Words<B>> {
        let aligned = bytes.as_ref().as_ptr().cast::<u32>().is_aligned();
        aligned.then_some(Words { bytes })
    }
}

impl<B> Words<B> {
    /// The bytes.
    #[inline]
    pub fn into_inner(self) -> B {
        self.bytes
    }
}

impl<B: AsRef<[u8]>> AsRef<[u32]> for Words<B> {
    #[inline]
    fn as_ref(&self) -> &[u32] {
        // SAFETY: any four bytes are a word.
        match unsafe { self.bytes.as_ref().align_to() } {
            ([], words, _) => words,
            _ => &[],
        }
    }
}

impl<B: AsMut<[u8]>> AsMut<[u32]> for Words<B> {
    #[inline]
    fn as_mut(&mut self) -> &mut [u32] {
        // SAFETY: any four bytes are a word, and any word is four bytes.
        match unsafe { self.bytes.as_mut().align_to_mut() } {
            ([], words, _) => words,
            _ => &mut [],
        }
    }
}
