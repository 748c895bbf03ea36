//! Partial-match queries.
use crate::raw::HostQuery;

/// A partial-match query: each attribute is given a value or left free.
///
/// Built from [`Query::all`], which leaves every attribute free, or from an array of up to four options.
///
/// ```
/// use mdeh::Query;
///
/// let code_30 = Query::all().given(0, 30);
/// assert_eq!(code_30, Query::from([Some(30), None, None]));
/// ```
#[derive(Clone, Copy, Debug, PartialEq, Eq)]
pub struct Query {
    pub(crate) raw: HostQuery,
    /// whether an attribute that no shape has is given
    pub(crate) beyond: bool,
}

impl Query {
    /// The query that every record matches.
    #[inline]
    pub const fn all() -> Query {
        Query { raw: HostQuery { given: [0; 4], values: [0; 4] }, beyond: false }
    }

    /// The query that also wants this value of this attribute, counted from 0.
    ///
    /// A query that names an attribute which the store's shape does not have is refused with
    /// [`Refusal::Attribute`](crate::Refusal::Attribute), a number that is no value of the attribute with
    /// [`Refusal::Value`](crate::Refusal::Value).
    #[inline]
    #[must_use]
    pub const fn given(mut self, attribute: usize, value: i32) -> Query {
        if attribute < 4 {
            self.raw.given[attribute] = 1;
            self.raw.values[attribute] = value;
        } else {
            self.beyond = true;
        }
        self
    }
}

impl From<[Option<i32>; 1]> for Query {
    #[inline]
    fn from([a]: [Option<i32>; 1]) -> Query {
        Query::from([a, None, None, None])
    }
}

impl From<[Option<i32>; 2]> for Query {
    #[inline]
    fn from([a, b]: [Option<i32>; 2]) -> Query {
        Query::from([a, b, None, None])
    }
}

impl From<[Option<i32>; 3]> for Query {
    #[inline]
    fn from([a, b, c]: [Option<i32>; 3]) -> Query {
        Query::from([a, b, c, None])
    }
}

impl From<[Option<i32>; 4]> for Query {
    #[inline]
    fn from(wanted: [Option<i32>; 4]) -> Query {
        Query { raw: HostQuery::new(wanted), beyond: false }
    }
}
