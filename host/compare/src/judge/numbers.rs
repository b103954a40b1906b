//! What two engines owe each other on the text of a number, and what either of them owes by itself: 1 exactly where it is due, a record that
//! is kept or is a number's, what the text was written for, and the law that str's text for what is read reads as the same.

use super::{differs, Breach, Difference};
use crate::call::number::{Read, Text};
use crate::call::Engine;
use second::term::{trim, Term};
use second::value::Value;
use willetcoffer::limits::NUMBER_RECORD_WIDTH;

/// The text that str gives for a number.
pub fn str_text(number: Term) -> Vec<u8> {
    match Value::from(&number).str() {
        Value::Str(Some((_, text))) => trim(&text).to_vec(),
        _ => Vec::new(),
    }
}

/// Has the text read by both and holds them to what they owe; what they gave.
pub fn judge(text: &Text, engines: [&dyn Engine; 2]) -> Result<Read, Difference> {
    let [read, other] = engines.map(|engine| text.read(engine));
    if read != other {
        return differs(Breach::Answers, format!("{read} and {other}"));
    }
    alone(text, &read)?;
    if let Some(number) = read.term() {
        let again = Text { bytes: str_text(number), record: NUMBER_RECORD_WIDTH, due: None };
        for engine in engines {
            let other = again.read(engine);
            if other != read {
                let what = format!("{} reads str's text for {number:?} as {other}", engine.name());
                return differs(Breach::Again, what);
            }
        }
    }
    Ok(read)
}

/// What a reading owes whatever another one gave.
fn alone(text: &Text, read: &Read) -> Result<(), Difference> {
    let Read { code, record } = read;
    if *code != 0 && *record != text.blank() {
        return differs(Breach::Kept, format!("refused {code} and changed the record"));
    }
    if (*code == 1) != (text.record != NUMBER_RECORD_WIDTH) {
        return differs(Breach::Lent, format!("{code} for a record of {} bytes", text.record));
    }
    let decimal = text.bytes.iter().any(|byte| b".eE".contains(byte));
    let fits = match read.term() {
        Some(Term::Int(_)) => !decimal,
        Some(_) => decimal,
        None => *code != 0,
    };
    if !fits {
        return differs(Breach::Record, format!("the record {record:02x?}"));
    }
    match text.due {
        Some(due) if *code != 1 && read.term().ok_or(*code) != due => {
            differs(Breach::Written, format!("{read}, where {due:?} is due"))
        }
        _ => Ok(()),
    }
}
