//! Keys and index vectors: one number for each attribute.

/// A key: a value for each attribute, 0 for an unused one. Made from an array of one to four values, which may be below
/// 0 where the shape marks the attribute as signed.
///
/// ```
/// use mdeh::Key;
///
/// assert_eq!(Key::from([30, 7]), Key { values: [30, 7, 0, 0] });
/// ```
#[repr(C)]
#[derive(Clone, Copy, Debug, PartialEq, Eq, Hash)]
pub struct Key {
    /// the values, attribute 0 first
    pub values: [i32; 4],
}

/// An index vector of the directory, 0 for an unused attribute. Made from an array of one to four indices, which have
/// no sign, whatever the shape marks.
#[repr(C)]
#[derive(Clone, Copy, Debug, PartialEq, Eq, Hash)]
pub struct Index {
    /// of attribute 0
    pub i0: u64,
    /// of attribute 1
    pub i1: u64,
    /// of attribute 2
    pub i2: u64,
    /// of attribute 3
    pub i3: u64,
}

impl From<[i32; 1]> for Key {
    #[inline]
    fn from([a]: [i32; 1]) -> Key {
        Key { values: [a, 0, 0, 0] }
    }
}

impl From<[i32; 2]> for Key {
    #[inline]
    fn from([a, b]: [i32; 2]) -> Key {
        Key { values: [a, b, 0, 0] }
    }
}

impl From<[i32; 3]> for Key {
    #[inline]
    fn from([a, b, c]: [i32; 3]) -> Key {
        Key { values: [a, b, c, 0] }
    }
}

impl From<[i32; 4]> for Key {
    #[inline]
    fn from(values: [i32; 4]) -> Key {
        Key { values }
    }
}

impl From<[u64; 1]> for Index {
    #[inline]
    fn from([i0]: [u64; 1]) -> Index {
        Index { i0, i1: 0, i2: 0, i3: 0 }
    }
}

impl From<[u64; 2]> for Index {
    #[inline]
    fn from([i0, i1]: [u64; 2]) -> Index {
        Index { i0, i1, i2: 0, i3: 0 }
    }
}

impl From<[u64; 3]> for Index {
    #[inline]
    fn from([i0, i1, i2]: [u64; 3]) -> Index {
        Index { i0, i1, i2, i3: 0 }
    }
}

impl From<[u64; 4]> for Index {
    #[inline]
    fn from([i0, i1, i2, i3]: [u64; 4]) -> Index {
        Index { i0, i1, i2, i3 }
    }
}

impl From<Index> for [u64; 4] {
    #[inline]
    fn from(index: Index) -> [u64; 4] {
        [index.i0, index.i1, index.i2, index.i3]
    }
}
