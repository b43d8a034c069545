//! The lot file of accepted documents: a table of contents and behind it the bodies of the lots,
//! all in one lent slice. The calls read the slice into a list of lots and write the changed list
//! back.

pub mod calls;
pub mod lots;
pub mod table;

#[cfg(test)]
mod papers;
