//! What went wrong, as it is shown.

use codespan_reporting::diagnostic::{Diagnostic as Shown, Label, LabelStyle};
use codespan_reporting::files::SimpleFile;
use codespan_reporting::term::termcolor::{ColorChoice, StandardStream, WriteColor};
use codespan_reporting::term::{emit, Chars, Config};
use std::fmt::Display;
use std::io::IsTerminal;
use std::path::Path;
use text::Diagnostic;
use willetcoffer::Refusal;

/// A command that has failed.
#[derive(Debug)]
pub enum Failure {
    /// A script with an error in it.
    Script {
        /// The script's file.
        name: String,
        /// Its text.
        text: String,
        /// The error.
        error: Box<Diagnostic>,
    },
    /// Anything else.
    Plain {
        /// The refusal's number, where it is one.
        refusal: Option<u32>,
        /// What is wrong.
        message: String,
        /// What to do.
        help: Vec<String>,
    },
}

impl Failure {
    /// A failure in words.
    pub fn new(message: impl Into<String>) -> Failure {
        Failure::Plain { refusal: None, message: message.into(), help: Vec::new() }
    }

    /// A failure with a file or a page.
    pub fn at(what: impl Display, error: impl Display) -> Failure {
        Failure::new(format!("{what}: {error}"))
    }

    /// A failure with a file.
    pub fn file(path: &Path, error: impl Display) -> Failure {
        Failure::at(path.display(), error)
    }

    /// A refused call.
    pub fn refused(what: impl Display, refusal: Refusal) -> Failure {
        let condition = refusal.to_string();
        let condition = condition.split_once(": ").map_or(condition.as_str(), |(_, condition)| condition);
        Failure::Plain { refusal: Some(refusal.number()), message: format!("{what}: {condition}"), help: Vec::new() }
    }

    /// What to do about it.
    pub fn help(mut self, text: impl Into<String>) -> Failure {
        if let Failure::Plain { help, .. } = &mut self {
            help.push(text.into());
        }
        self
    }

    /// The failure in one line.
    pub fn line(&self) -> String {
        match self {
            Failure::Script { name, error, .. } => format!("error: {name}: {error}"),
            Failure::Plain { message, .. } => format!("error: {message}"),
        }
    }

    /// Shows it on standard error.
    pub fn show(&self) {
        let color = if std::io::stderr().is_terminal() { ColorChoice::Auto } else { ColorChoice::Never };
        self.write(&mut StandardStream::stderr(color).lock());
    }

    fn write(&self, out: &mut dyn WriteColor) {
        let config = Config { chars: Chars::ascii(), ..Config::default() };
        let result = match self {
            Failure::Script { name, text, error } => emit(out, &config, &SimpleFile::new(name, text), &placed(error)),
            Failure::Plain { refusal, message, help } => {
                let code = refusal.map(|number| number.to_string()).unwrap_or_default();
                let shown = Shown::error().with_code(code).with_message(message).with_notes(notes(help));
                emit(out, &config, &SimpleFile::new("", ""), &shown)
            }
        };
        if let Err(error) = result {
            eprintln!("willet: {error}");
        }
    }
}

fn notes(help: &[String]) -> Vec<String> {
    help.iter().map(|help| format!("help: {help}")).collect()
}

/// An error of a script with its places; the first is the one to look at.
fn placed(error: &Diagnostic) -> Shown<()> {
    let styles = std::iter::once(LabelStyle::Primary).chain(std::iter::repeat(LabelStyle::Secondary));
    let labels = error.labels.iter().zip(styles);
    let labels = labels.map(|(label, style)| Label::new(style, (), label.span.clone()).with_message(&label.text));
    Shown::error()
        .with_code(error.refusal.to_string())
        .with_message(&error.message)
        .with_labels(labels.collect())
        .with_notes(notes(&error.help))
}
