//! Pages from Linked Data. libraptor2 reads the text ([`read`]); [`page`] turns its triples into page records, and lists with its reason
//! each one that cannot be a record. The other way round [`published`] turns records into triples, and [`written`] these into text.
#![deny(unsafe_code)]
#![warn(missing_docs)]

mod format;
mod page;
mod publish;
#[allow(unsafe_code)]
mod raptor;
mod reason;
mod triple;

pub use format::Format;
pub use page::{page, LeftOut, Page};
pub use publish::{published, written, NotWritten, Published, Unwritable};
pub use raptor::{read, Document, SyntaxError};
pub use reason::Reason;
pub use triple::{Object, Resource, Triple};
