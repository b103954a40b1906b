//! Schema records.

use crate::hash::Map;
use crate::limits::{ENTRY, TEXT};
use crate::refusal::{demand, refuse, Refusal};
use crate::term::{uri_body, Uri};
use crate::types::Datatype;

/// The schema: which URIs are properties, and the datatype of each one's objects.
#[derive(Clone, Debug, Default)]
pub struct Schema {
    /// The properties in schema order.
    pub properties: Vec<Uri>,
    /// The datatype of each property.
    pub datatypes: Map<Uri, Datatype>,
}

impl Schema {
    /// Reads all schema records (refusal 4), then looks for a property given twice (refusal 5).
    pub fn read(bytes: &[u8]) -> Result<Schema, Refusal> {
        let mut entries = Vec::new();
        for record in bytes.chunks(ENTRY) {
            demand(record.len() == ENTRY && record[0] == 0x21, 4, "schema record: kind or length")?;
            match (uri_body(&record[1..=TEXT]), Datatype::from_code(record[1 + TEXT])) {
                (Some(uri), Some(datatype)) => entries.push((uri, datatype)),
                (None, _) => return refuse(4, "schema record: URI"),
                (_, None) => return refuse(4, "schema record: datatype"),
            }
        }
        let mut schema = Schema::default();
        for (uri, datatype) in entries {
            demand(schema.datatypes.insert(uri, datatype).is_none(), 5, "property twice")?;
            schema.properties.push(uri);
        }
        Ok(schema)
    }

    /// The datatype of a property's objects, if the URI is a property.
    pub fn datatype(&self, uri: &Uri) -> Option<Datatype> {
        self.datatypes.get(uri).copied()
    }
}
