//! Pages that a schema is gathered from: records that ask something of their subject, records that miss that by little, as many subjects as get an
//! entry and one or two more, pages as long as may be and a byte longer, bad ones. What is due is known from how they were written.

mod records;

use super::damage::damage;
use super::rng::Rng;
use crate::call::schema::{Entries, SchemaPage};
use records::{asking, noise, Record, Subjects};
use second::term::Uri;
use second::types::Datatype::{self, AnyUri, DateTime, Decimal, Integer, String as Text};
use second::write::entry;
use willetcoffer::kinds;
use willetcoffer::limits::{
    ENTRY_LIMIT, ENTRY_WIDTH, OBJECT_OFFSET, PAGE_LIMIT, PROPERTY_OFFSET, SCHEMA_REPORT_WIDTH, SCHEMA_WIDTH,
};
use willetcoffer::page::record_width;

/// The page of this index.
pub fn page(seed: u64, index: u64) -> SchemaPage {
    let rng = &mut Rng::new(seed, index);
    let (page, due) = match rng.weighted(&[17, 57, 8, 7, 8, 3]) {
        0 => written(few(rng)),
        1 => written(at_the_limit(rng)),
        2 => written(as_long_as(rng, PAGE_LIMIT)),
        3 => (joined(&as_long_as(rng, PAGE_LIMIT + 1)), Some(Err(13))),
        4 => (bad(rng), Some(Err(13))),
        _ => {
            let mut page = joined(&few(rng));
            damage(rng, &mut page);
            (page, None)
        }
    };
    let [schema, report] = [other_width(rng, SCHEMA_WIDTH), other_width(rng, SCHEMA_REPORT_WIDTH)];
    SchemaPage { page, schema: lent(rng, schema), report: vec![0xaa; report], due }
}

/// This width, or now and then another.
fn other_width(rng: &mut Rng, width: usize) -> usize {
    if !rng.one_in(20) {
        return width;
    }
    // A schema of the widths of before had 42 bytes for each entry.
    let of_before = if width == SCHEMA_WIDTH { 42 * ENTRY_LIMIT } else { width / 2 };
    let any = rng.below(2 * width);
    let other = rng.one(&[0, width - 1, width + 1, of_before, any]);
    if other == width {
        0
    } else {
        other
    }
}

/// Bytes to be written over: all the same, or the entries that somebody gathered before.
fn lent(rng: &mut Rng, width: usize) -> Vec<u8> {
    match rng.below(6) {
        0 => vec![0; width],
        1 => {
            let subjects = Subjects::new(rng);
            let entries = (0..width / ENTRY_WIDTH + 1).flat_map(|n| entry(&subjects.get(n), Text));
            entries.take(width).collect()
        }
        _ => vec![0xaa; width],
    }
}

fn joined(records: &[Record]) -> Vec<u8> {
    records.iter().flat_map(|record| record.bytes.iter().copied()).collect()
}

/// The least datatype for what is asked, if there is one: all is one datatype, or integer and decimal.
fn least(asked: &[Datatype]) -> Option<Datatype> {
    match asked {
        [first, rest @ ..] if rest.iter().all(|other| other == first) => Some(*first),
        all => all.iter().all(|one| [Integer, Decimal].contains(one)).then_some(Decimal),
    }
}

/// The page of these records, and what is due for it.
fn written(records: Vec<Record>) -> (Vec<u8>, Option<Result<Entries, u32>>) {
    let mut subjects: Vec<(Uri, Vec<Datatype>)> = Vec::new();
    for Record { subject, asks, .. } in &records {
        let Some(asks) = asks else { continue };
        match subjects.iter_mut().find(|(other, _)| other == subject) {
            Some((_, asked)) => asked.push(*asks),
            None => subjects.push((*subject, vec![*asks])),
        }
    }
    let met: Vec<_> = subjects.iter().filter_map(|(subject, asked)| Some((subject, least(asked)?))).collect();
    let due = if met.len() > ENTRY_LIMIT {
        Err(19)
    } else {
        let records = met.iter().flat_map(|(subject, datatype)| entry(subject, *datatype)).collect();
        Ok(Entries { records, left_out: (subjects.len() - met.len()) as u32 })
    };
    (joined(&records), Some(due))
}

/// A few records over a few subjects, whatever they ask.
fn few(rng: &mut Rng) -> Vec<Record> {
    let subjects = Subjects::new(rng);
    let count = rng.one(&[1, 1, 2, 3, 5]);
    let datatypes = [AnyUri, Text, Decimal, DateTime, Integer];
    // Often of two datatypes only, so that what is asked goes together now and then.
    let two = [rng.one(&datatypes), rng.one(&datatypes)];
    let some = if rng.one_in(3) { &datatypes[..] } else { &two };
    let records = (0..rng.below(14)).map(|_| {
        let subject = subjects.get(rng.below(count));
        if rng.percent(45) {
            let datatype = rng.one(some);
            asking(rng, &subject, datatype)
        } else {
            noise(rng, &subject, None)
        }
    });
    records.collect()
}

/// What is asked of a subject that gets an entry: one datatype, or integer and decimal.
fn met(rng: &mut Rng) -> Vec<Datatype> {
    let datatype = rng.one(&[AnyUri, AnyUri, Text, Decimal, DateTime, Integer]);
    let mut all = vec![datatype; rng.one(&[1, 1, 1, 1, 1, 2])];
    if datatype == Decimal && rng.one_in(2) {
        all.insert(rng.below(2), Integer);
    }
    all
}

/// What is asked of a subject that is left out: two datatypes of different families, and perhaps more.
fn unmet(rng: &mut Rng) -> Vec<Datatype> {
    let families: [&[Datatype]; 4] = [&[AnyUri], &[Text], &[Decimal, Integer], &[DateTime]];
    let first = rng.below(4);
    let second = (first + rng.within(1, 3)) % 4;
    let mut all = vec![rng.one(families[first]), rng.one(families[second])];
    while rng.one_in(3) {
        let family = rng.below(4);
        let more = rng.one(families[family]);
        all.push(more);
    }
    all
}

/// 127 to 130 subjects that get an entry, often with some that are left out and some of which nothing is asked. In one of the three orders the first
/// record of each stands before all the others, so that there are more subjects on the way than get an entry.
fn at_the_limit(rng: &mut Rng) -> Vec<Record> {
    let subjects = Subjects::new(rng);
    let entries = rng.within(ENTRY_LIMIT - 1, ENTRY_LIMIT + 2);
    let left_out = if rng.one_in(2) { rng.within(1, 8) } else { 0 };
    let mut of_subjects: Vec<Vec<Datatype>> = (0..entries).map(|_| met(rng)).collect();
    of_subjects.extend((0..left_out).map(|_| unmet(rng)));
    rng.shuffle(&mut of_subjects);
    let (mut firsts, mut others) = (Vec::new(), Vec::new());
    let order = rng.below(3);
    for (n, asked) in of_subjects.iter().enumerate() {
        for (place, datatype) in asked.iter().enumerate() {
            let record = asking(rng, &subjects.get(n), *datatype);
            (if order == 0 || place == 0 { &mut firsts } else { &mut others }).push(record);
        }
    }
    for _ in 0..rng.below(14) {
        let subject = subjects.get(rng.below(of_subjects.len() + 3));
        let place = rng.below(firsts.len());
        firsts.insert(place, noise(rng, &subject, None));
    }
    firsts.extend(others);
    if order == 2 {
        rng.shuffle(&mut firsts);
    }
    while joined(&firsts).len() > PAGE_LIMIT {
        firsts.retain(|record| record.asks.is_some());
        firsts.pop();
    }
    firsts
}

/// Records of so many bytes in all, 65,536 or one more: a number of them with URIs as objects that leaves a multiple of 3, then as many strings and
/// numbers as make up the rest.
fn as_long_as(rng: &mut Rng, bytes: usize) -> Vec<Record> {
    let [uri, string, number] = [0x81, 0x82, 0x83].map(|kind| record_width(kind).unwrap_or(1));
    // 289 is one more than a multiple of 3, as 297 and 201 are multiples.
    let some = rng.one(&[20, 130, 154, 154]);
    let uris = some + (bytes - some) % 3;
    let left = bytes - uri * uris;
    let strings = (0..=left / string).find(|strings| (left - string * strings).is_multiple_of(number)).unwrap_or(0);
    let subjects = Subjects::new(rng);
    let count = rng.one(&[4, 126, 200, 200]);
    let mut records: Vec<Record> = (0..uris)
        .map(|n| {
            let subject = subjects.get(n % count);
            // By the subject's number, so that most subjects of several records get an entry.
            let datatype =
                if rng.one_in(60) { Text } else { [AnyUri, Text, Integer, DateTime, Decimal][n % count % 5] };
            if rng.one_in(12) {
                noise(rng, &subject, Some(kinds::URI))
            } else {
                asking(rng, &subject, datatype)
            }
        })
        .collect();
    records.extend((0..strings).map(|n| noise(rng, &subjects.get(n), Some(kinds::STRING))));
    let numbers = (left - string * strings) / number;
    records.extend((0..numbers).map(|n| noise(rng, &subjects.get(n), Some(kinds::INTEGER))));
    rng.shuffle(&mut records);
    records
}

/// A page with one bad record, often the last of more than there is room for.
fn bad(rng: &mut Rng) -> Vec<u8> {
    let mut records = if rng.one_in(2) { at_the_limit(rng) } else { few(rng) };
    let subject = Subjects::new(rng).get(0);
    records.push(noise(rng, &subject, None));
    let place = if rng.one_in(2) { records.len() - 1 } else { rng.below(records.len()) };
    spoil(rng, &mut records[place].bytes);
    let mut page = joined(&records);
    if rng.one_in(6) {
        page = joined(&records[..place]);
        page.extend(&records[place].bytes[..1]);
    }
    page
}

/// Makes a record bad, whatever follows it: its kind is none, a text of it has no first byte, a byte that none has or one after its end, or a number
/// is outside its limits.
fn spoil(rng: &mut Rng, record: &mut [u8]) {
    let field = rng.one(&[1, PROPERTY_OFFSET]);
    match rng.below(6) {
        0 => record[0] = rng.one(&[0x80, 0x86, 0x21, 0x11, 0x00, 0xff]),
        1 => record[field] = 0,
        2 => record[field] = rng.one(&[0x20, 0x7f, 0x80, 0xff, 0x0a]),
        3 if record[field + 94] == 0 => record[field + 95] = b'x',
        4 if record[0] > 0x82 => record[OBJECT_OFFSET..].fill(0x7f),
        5 if record[0] == 0x82 => record[OBJECT_OFFSET] = b'E',
        _ => record[OBJECT_OFFSET..].fill(0x80),
    }
}
