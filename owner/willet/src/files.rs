//! Scripts, cards and legends in files.

use crate::args::ScriptArgs;
use crate::failure::Failure;
use std::path::{Path, PathBuf};
use text::tree::Source;
use text::{check, decode, encode, parse, split, Diagnostic, Encoded, Legend};
use willetcoffer::Card;

/// A script's text and tree.
pub struct ScriptFile {
    name: String,
    text: String,
    pub source: Source,
}

pub fn read(path: &Path) -> Result<Vec<u8>, Failure> {
    std::fs::read(path).map_err(|error| Failure::file(path, error))
}

pub fn write(path: &Path, bytes: impl AsRef<[u8]>) -> Result<(), Failure> {
    std::fs::write(path, bytes).map_err(|error| Failure::file(path, error))
}

fn read_text(path: &Path) -> Result<String, Failure> {
    String::from_utf8(read(path)?).map_err(|_| {
        let help = "a card's name ends in .card";
        Failure::file(path, "this is no text").help(help)
    })
}

impl ScriptFile {
    pub fn read(path: &Path) -> Result<ScriptFile, Failure> {
        let (name, text) = (path.display().to_string(), read_text(path)?);
        match parse(&text) {
            Ok(source) => Ok(ScriptFile { name, text, source }),
            Err(error) => Err(Failure::Script { name, text, error: Box::new(error) }),
        }
    }

    /// An error in this file.
    pub fn failure(&self, error: Diagnostic) -> Failure {
        Failure::Script { name: self.name.clone(), text: self.text.clone(), error: Box::new(error) }
    }

    /// The card of a script that is accepted.
    pub fn accepted(&self) -> Result<Encoded, Failure> {
        check(&self.source).map_err(|error| self.failure(error))?;
        encode(&self.source).map_err(|error| self.failure(error))
    }
}

/// The legend beside a card.
pub fn legend_path(card: &Path) -> PathBuf {
    card.with_extension("legend")
}

/// Reads a legend, or that of a script.
pub fn read_legend(path: &Path) -> Result<Legend, Failure> {
    let text = read_text(path)?;
    Legend::parse(&text).map_err(|error| Failure::Script {
        name: path.display().to_string(),
        text,
        error: Box::new(error),
    })
}

/// A card with its legend and its tree, from a card's file or from a script's.
pub struct CardFile {
    pub card: Card,
    pub legend: Legend,
    pub source: Source,
}

impl CardFile {
    pub fn read(args: &ScriptArgs) -> Result<CardFile, Failure> {
        let path = &args.file;
        let Encoded { card, legend } = if path.extension().is_some_and(|extension| extension == "card") {
            CardFile::encoded(args)?
        } else {
            ScriptFile::read(path)?.accepted()?
        };
        let source = decode(&card, &legend).map_err(|bad| {
            let message =
                format!("{}: {}, at byte {} of the card's {}", path.display(), bad.message, bad.offset, bad.part);
            Failure::Plain { refusal: Some(bad.refusal), message, help: Vec::new() }
        })?;
        Ok(CardFile { card, legend, source })
    }

    fn encoded(args: &ScriptArgs) -> Result<Encoded, Failure> {
        let card = split(&read(&args.file)?);
        let beside = legend_path(&args.file);
        let legend = match &args.legend {
            Some(path) => read_legend(path)?,
            None if beside.exists() => read_legend(&beside)?,
            None => Legend::default(),
        };
        Ok(Encoded { card, legend })
    }
}
