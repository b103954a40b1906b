//! What was met among the pages that a schema is gathered from, by what their records ask and what came of it.

use super::coverage::{Coverage, ENOUGH};
use crate::call::schema::{Gathered, SchemaPage};
use second::gather::{asked, fast};
use second::page::{read, Triple};
use second::term::{trim, Term, Uri};
use second::types::Datatype::{self, Decimal, Integer};
use std::collections::BTreeSet;
use willetcoffer::limits::{ENTRY_LIMIT, PAGE_LIMIT, SCHEMA_REPORT_WIDTH, SCHEMA_WIDTH};
use willetcoffer::page::records;

/// What stands on pages is to be met by one of so many: each 1,000 times in the gate's 20,000.
const PAGES_FOR_ONE: u64 = 20;

/// How a text misses a word.
const MISSES: [&str; 5] = ["by case", "a byte short", "a byte long", "another byte", "96 bytes"];

/// What stands on pages, and what comes of them.
const OFTEN: [(&str, &[&str]); 16] = [
    ("schema", &["00", "01", "13", "19"]),
    ("schema asked by", &["xsd:anyURI", "xsd:string", "xsd:decimal", "xsd:dateTime", "xsd:integer"]),
    ("schema asked by", &["another URI", "owl:ObjectProperty"]),
    ("schema not asked by", &["range, a string", "range, a tagged string", "range, an integer", "range, a decimal"]),
    ("schema not asked by", &["range, a dateTime", "another class", "a class as a literal", "another property"]),
    ("text that misses rdfs:range", &MISSES),
    ("text that misses rdf:type", &MISSES),
    ("text that misses owl:ObjectProperty", &MISSES),
    ("text that misses a datatype", &MISSES),
    ("asked of a subject", &["once", "the same again", "integer, then decimal", "decimal, then integer", "too much"]),
    ("asked of a subject", &["too much, then more"]),
    ("schema's entries", &["127, none left out", "128, none left out", "129, none left out", "130, none left out"]),
    ("schema's entries", &["127, some left out", "128, some left out", "129, some left out", "130, some left out"]),
    ("schema's entries", &["128 or fewer of more subjects", "in another order than first records"]),
    ("schema page", &["of 65,536 bytes", "of 65,537 bytes", "with a bad record"]),
    ("subject's length", &["40", "41", "95", "96"]),
];

/// What is lent otherwise, refusals together, and pairs of what does not go together.
const SOMETIMES: [(&str, &[&str]); 7] = [
    ("schema before which 1 came", &["00", "13", "19"]),
    ("schema before which 13 came", &["19, a bad record", "19, too long"]),
    ("schema's buffer", &["0 bytes", "5376 bytes", "12543 bytes", "12544 bytes", "12545 bytes", "another length"]),
    ("schema's report", &["0 bytes", "4 bytes", "7 bytes", "8 bytes", "9 bytes", "another length"]),
    ("too much asked", &["anyURI and string", "anyURI and number", "anyURI and dateTime"]),
    ("too much asked", &["string and number", "string and dateTime", "number and dateTime"]),
    ("schema's entries", &["none"]),
];

fn width(width: usize, known: &[usize]) -> String {
    if known.contains(&width) {
        format!("{width} bytes")
    } else {
        "another length".to_string()
    }
}

/// How a text misses a word, if it is near it.
fn miss(text: &[u8], word: &[u8]) -> Option<&'static str> {
    let longer = text.len().checked_sub(word.len()).filter(|_| text.starts_with(word));
    let place = match longer {
        Some(1) => 2,
        Some(more) if more > 1 && text.len() == 96 => 4,
        _ if text != word && text.eq_ignore_ascii_case(word) => 0,
        _ if word.starts_with(text) && text.len() + 1 == word.len() => 1,
        _ if text.len() == word.len() && text.iter().zip(word).filter(|(a, b)| a != b).count() == 1 => 3,
        _ => return None,
    };
    Some(MISSES[place])
}

/// The family of a datatype: decimal and integer are one.
fn family(datatype: Datatype) -> &'static str {
    match datatype {
        Datatype::AnyUri => "anyURI",
        Datatype::String => "string",
        Datatype::Decimal | Datatype::Integer => "number",
        Datatype::DateTime => "dateTime",
    }
}

type Keys = BTreeSet<(&'static str, String)>;

/// What a record asks, or does not.
fn of_record(Triple { property, object, .. }: &Triple, keys: &mut Keys) {
    let mut add = |section, key: &str| keys.insert((section, key.to_string()));
    let class: &[u8] = b"owl:ObjectProperty";
    match (trim(property), object) {
        (b"rdfs:range", Term::Uri(object)) => {
            let text = trim(object);
            let named = Datatype::ALL.into_iter().find(|datatype| datatype.name().as_bytes() == text);
            add("schema asked by", named.map_or("another URI", Datatype::name));
            let misses = Datatype::ALL.into_iter().filter_map(|datatype| miss(text, datatype.name().as_bytes()));
            misses.for_each(|key| _ = add("text that misses a datatype", key));
        }
        (b"rdfs:range", literal) => {
            let kind = match literal {
                Term::Str(tag, _) if tag[0] == 0 => "range, a string",
                Term::Str(..) => "range, a tagged string",
                Term::Int(_) => "range, an integer",
                Term::Dec(_) => "range, a decimal",
                _ => "range, a dateTime",
            };
            add("schema not asked by", kind);
        }
        (b"rdf:type", Term::Uri(object)) if trim(object) == class => _ = add("schema asked by", "owl:ObjectProperty"),
        (b"rdf:type", Term::Uri(object)) => {
            add("schema not asked by", "another class");
            miss(trim(object), class).map(|key| add("text that misses owl:ObjectProperty", key));
        }
        (b"rdf:type", Term::Str(_, text)) if trim(text) == class => {
            add("schema not asked by", "a class as a literal");
        }
        (other, Term::Uri(_)) => {
            add("schema not asked by", "another property");
            miss(other, b"rdfs:range").map(|key| add("text that misses rdfs:range", key));
            miss(other, b"rdf:type").map(|key| add("text that misses rdf:type", key));
        }
        _ => {}
    }
}

/// What is asked of a subject, record by record.
fn of_subject(asked: &[Datatype], keys: &mut Keys) {
    let mut add = |section, key: String| keys.insert((section, key));
    let families: BTreeSet<&str> = asked.iter().map(|datatype| family(*datatype)).collect();
    let key = match asked {
        [_] => "once",
        [first, rest @ ..] if rest.iter().all(|other| other == first) => "the same again",
        [Integer, ..] if families.len() == 1 => "integer, then decimal",
        [Decimal, ..] if families.len() == 1 => "decimal, then integer",
        [_, _] => "too much",
        _ => "too much, then more",
    };
    add("asked of a subject", key.to_string());
    let order = ["anyURI", "string", "number", "dateTime"];
    let there: Vec<&str> = order.into_iter().filter(|family| families.contains(family)).collect();
    if let [one, other] = there[..] {
        add("too much asked", format!("{one} and {other}"));
    }
}

/// The subjects in the order of these records, each once.
fn subjects<'a>(triples: impl Iterator<Item = &'a Triple>) -> Vec<&'a Uri> {
    let mut seen = BTreeSet::new();
    triples.map(|triple| &triple.subject).filter(|subject| seen.insert(*subject)).collect()
}

impl Coverage {
    /// Counts a page and what came of it.
    pub fn schema(&mut self, page: &SchemaPage, gathered: &Gathered) {
        self.add("schema", format!("{:02}", gathered.code));
        let known = [0, 42 * ENTRY_LIMIT, SCHEMA_WIDTH - 1, SCHEMA_WIDTH, SCHEMA_WIDTH + 1];
        self.add("schema's buffer", width(page.schema.len(), &known));
        let known = [0, 4, SCHEMA_REPORT_WIDTH - 1, SCHEMA_REPORT_WIDTH, SCHEMA_REPORT_WIDTH + 1];
        self.add("schema's report", width(page.report.len(), &known));
        // The good records up to the first bad one, whatever the page's length.
        let triples: Vec<Triple> = records(&page.page).map_while(|record| read(record).ok()?.pop()).collect();
        let too_many = fast(&triples).entries.len() > ENTRY_LIMIT;
        let (over, good) = (page.page.len() > PAGE_LIMIT, read(&page.page).is_ok());
        match gathered.code {
            1 => {
                let otherwise = if !good {
                    "13"
                } else if too_many {
                    "19"
                } else {
                    "00"
                };
                self.add("schema before which 1 came", otherwise);
            }
            13 if too_many && over => self.add("schema before which 13 came", "19, too long"),
            13 if too_many => self.add("schema before which 13 came", "19, a bad record"),
            _ => {}
        }
        match page.page.len().checked_sub(PAGE_LIMIT) {
            Some(0) if gathered.code != 1 => self.add("schema page", "of 65,536 bytes"),
            Some(1) if gathered.code == 13 => self.add("schema page", "of 65,537 bytes"),
            None if gathered.code == 13 => self.add("schema page", "with a bad record"),
            _ => {}
        }
        if good && gathered.code != 1 {
            self.schema_of(&triples);
        }
    }

    /// Counts what stands on a good page.
    fn schema_of(&mut self, triples: &[Triple]) {
        let mut keys = Keys::new();
        triples.iter().for_each(|triple| of_record(triple, &mut keys));
        let asking = subjects(triples.iter().filter(|triple| asked(triple).is_some()));
        for subject in &asking {
            let of_it: Vec<Datatype> =
                triples.iter().filter(|triple| triple.subject == **subject).filter_map(asked).collect();
            of_subject(&of_it, &mut keys);
            keys.insert(("subject's length", trim(&subject[..]).len().to_string()));
        }
        for (section, key) in keys {
            self.add(section, key);
        }
        let gathered = fast(triples);
        let (entries, left_out) = (gathered.entries.len(), gathered.left_out);
        let some = if left_out > 0 { "some" } else { "none" };
        match entries {
            0 => self.add("schema's entries", "none"),
            127.. => self.add("schema's entries", format!("{entries}, {some} left out")),
            _ => {}
        }
        if entries <= ENTRY_LIMIT && entries + left_out > ENTRY_LIMIT {
            self.add("schema's entries", "128 or fewer of more subjects");
        }
        let first: Vec<&Uri> = subjects(triples.iter()).into_iter().filter(|one| asking.contains(one)).collect();
        if first != asking {
            self.add("schema's entries", "in another order than first records");
        }
    }

    /// What of schemas was met too rarely on so many pages, of what is required.
    pub fn missing_of_schemas(&self, pages: u64) -> Vec<String> {
        let often = OFTEN.iter().map(|row| (row, pages / PAGES_FOR_ONE));
        let rows = often.chain(SOMETIMES.iter().map(|row| (row, ENOUGH)));
        let rows = rows.flat_map(|((section, keys), enough)| keys.iter().map(move |key| (*section, *key, enough)));
        self.few(rows.map(|(section, key, enough)| (section, key.to_string(), enough)))
    }
}
