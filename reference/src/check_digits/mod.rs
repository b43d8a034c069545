//! Check digits for documents whose magnetic line is torn: what belongs beside the number of a
//! document, an entity with its branch and an account, and whether it was keyed.

pub mod document;
pub mod schemes;
pub mod weighted;
