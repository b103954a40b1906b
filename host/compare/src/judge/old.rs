//! What is written in the widths of before is read by those of now, and does not fit.
//!
//! A record of before is shorter than one of now, so that what follows it stands in a text of the record of now: a kind, or an entry's
//! datatype, and no text has such a byte; and where nothing follows, the record is cut off. So no old card with a text and no old page with
//! a record is ever taken for something else.

use super::{Breach, Difference};
use crate::before;
use crate::call::{Call, Made};

/// Holds a call to that, where 1 and 21 do not come before.
pub(super) fn refused(made: &Made) -> Result<(), Difference> {
    let code = made.answers[0].code;
    let card = &made.before.card;
    let (terms, schema) = (before::has_texts(&card.terms), before::is_schema(&card.schema));
    let due: &[u32] = match made.call {
        _ if [1, 21].contains(&code) => return Ok(()),
        Call::Load | Call::Total { .. } | Call::Suggest { .. } if terms => &[2],
        Call::Load | Call::Total { .. } | Call::Suggest { .. } if schema => &[2, 3, 4],
        Call::Run { .. } | Call::Page { .. } | Call::Publish { .. } if terms || schema => &[10],
        Call::Page { page, .. } if before::is_page(page) => &[10, 12, 13],
        _ => return Ok(()),
    };
    if due.contains(&code) {
        return Ok(());
    }
    Err(Difference::new(Breach::Old, format!("{code} for what has the widths of before, where {due:?} is due")))
}
