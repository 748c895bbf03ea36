//! The calls of the C interface on slices, safe and nothing more: a refusal is its number, with what 14 and 5 carry
//! ([`Refused`]), and the state lies in words that the caller lends. [`Store`](crate::Store) stands on them, and so do
//! tests that want every slice in their hands.
//!
//! Here is the address map; `store` has Fresh and the calls that read, `range` the range call, `changes` insert and
//! delete, `files` save and load.
mod changes;
mod files;
mod range;
mod store;

pub use changes::*;
pub use files::*;
pub use range::*;
pub use store::*;

pub use crate::{Index, Key, Shape};

/// Why a call is refused.
#[derive(Clone, Copy, Debug, PartialEq, Eq)]
pub struct Refused {
    /// the refusal's number
    pub number: u32,
    /// with number 14 the lowest whose width is out of bounds, otherwise 0
    pub attribute: u32,
    /// with number 5 that of the leaf in which the absent key falls, otherwise 0
    pub depth: u32,
}

/// Number 0 and an address, or the number of the refusal and address 0; with number 14 the attribute.
#[repr(C)]
#[derive(Clone, Copy, Debug, PartialEq, Eq)]
pub struct AddressResult {
    /// 0, or the refusal's number
    pub number: u32,
    /// with number 14 the lowest whose width is out of bounds
    pub attribute: u32,
    /// where the index vector is
    pub address: u64,
}

/// Number 0 and an index vector, or the number of the refusal and the zero vector; with number 14 the attribute.
#[repr(C)]
#[derive(Clone, Copy, Debug, PartialEq, Eq)]
pub struct IndexResult {
    /// 0, or the refusal's number
    pub number: u32,
    /// with number 14 the lowest whose width is out of bounds
    pub attribute: u32,
    /// what is at the address
    pub index: Index,
}

extern "C" {
    fn mdeh_address(shape: Shape, index: Index) -> AddressResult;
    fn mdeh_index(shape: Shape, address: u64) -> IndexResult;
}

/// The address of an index vector, as the library returns it.
#[inline]
pub fn address_result(shape: Shape, index: [u64; 4]) -> AddressResult {
    // SAFETY: numbers alone go in and out, and the function has no `requires`.
    unsafe { mdeh_address(shape, Index::from(index)) }
}

/// The index vector at an address, as the library returns it.
#[inline]
pub fn index_result(shape: Shape, address: u64) -> IndexResult {
    // SAFETY: numbers alone go in and out, and the function has no `requires`.
    unsafe { mdeh_index(shape, address) }
}

/// The address of an index vector, or the refusal.
#[inline]
pub fn address(shape: Shape, index: [u64; 4]) -> Result<u64, Refused> {
    let AddressResult { number, attribute, address } = address_result(shape, index);
    accepted(number, attribute)?;
    Ok(address)
}

/// The index vector at an address, or the refusal.
#[inline]
pub fn index(shape: Shape, address: u64) -> Result<[u64; 4], Refused> {
    let IndexResult { number, attribute, index } = index_result(shape, address);
    accepted(number, attribute)?;
    Ok(index.into())
}

/// The refusal of a call that never gives 5, unless its number is 0.
#[inline]
fn accepted(number: u32, attribute: u32) -> Result<(), Refused> {
    match number {
        0 => Ok(()),
        number => Err(Refused { number, attribute, depth: 0 }),
    }
}
