//! Willetcoffer: the proved engine for page scripts, as a safe library over its archive.
//!
//! A [`Card`] holds terms, a schema and a script. A host lends [`Tables`], loads the card, and keeps the [`SavedRun`] that comes
//! back; it runs the card with a budget of steps, fetches the page of a graph that is wanted, hands it in, and runs on. Each
//! call gives its report, or a [`Refusal`] that has changed nothing.
//!
//! ```
//! use willetcoffer::script::{con, each, from_named, pattern, success, var};
//! use willetcoffer::{page::triple, Card, Datatype, State, Tables, Term};
//!
//! // From the yard's page, each thing with a name. Constants: 0 is the yard, 1 the property, which the schema adds.
//! let (yard, name) = (Term::uri("http://club.example/yard")?, Term::uri("p:name")?);
//! let named = pattern([con(0), var(0), con(1), var(1)]);
//! let script = from_named(con(0), each(&[(0, None), (1, None)], named, success()));
//! let card = Card::new(&[yard], &[(name, Datatype::String)], script);
//!
//! let mut tables = Tables::new();
//! let mut saved = card.load(&mut tables)?;
//! let types: Vec<String> = saved.types().map(|(variable, t)| format!("{variable} {t}")).collect();
//! assert_eq!(types, ["0 xsd:anyURI", "1 xsd:string"]);
//!
//! // The page of the yard is wanted before the first step.
//! let report = card.run(&tables, &mut saved, 100, 0)?;
//! assert_eq!((report.steps, report.state), (0, State::Wanted(0)));
//!
//! let page = triple(&Term::uri("u:loco")?, &name, &Term::string("Mallard")?).ok_or("no page record")?;
//! assert_eq!(card.page(&mut tables, &mut saved, 0u16, &page)?.skipped, 0);
//!
//! // From named, the block's answer with success, the block's end: four steps.
//! let report = card.run(&tables, &mut saved, 100, 0)?;
//! assert_eq!((report.steps, report.state), (4, State::Ended));
//! let mallard = saved.binding(1).and_then(|number| tables.term(number));
//! assert_eq!(mallard.map(|term| term.to_string()).as_deref(), Some("Mallard"));
//! # Ok::<(), Box<dyn std::error::Error>>(())
//! ```
//!
//! A number that a maker prints, `126.4` or `0.999e2`, is read as a term by [`number()`], exactly. What a page says of the ranges of
//! properties is made a schema by [`schema_of_page`].
//!
//! Where a card is refused because its types can be read in several ways ([`Refusal::NoGreatest`]), [`Card::suggest`] names one written type
//! that would do.
//!
//! What a station knows of a graph is put up as a page by [`Card::publish`], and another station can take that in.
//!
//! Strings are sorted by the [`ranks`] that are lent with the tables: the built-in ones, or a club's own.
//!
//! What is behind a call is proved, for every input: [`raw`] is the boundary to it, and the only place in this workspace with
//! `unsafe`. [`limits`] names every width, limit and offset once, [`kinds`] every kind of record.
#![deny(unsafe_code)]
#![warn(missing_docs)]

pub mod kinds;
pub mod limits;
pub mod page;
pub mod ranks;
#[allow(unsafe_code)]
pub mod raw;
pub mod saved;
pub mod script;
pub mod term;

mod card;
mod gathered;
mod number;
mod refusal;
mod report;
mod suggestion;
mod tables;
mod types;

pub use card::Card;
pub use gathered::{schema_of_page, GatheredSchema};
pub use number::number;
pub use refusal::Refusal;
pub use report::{PageReport, RunReport, State};
pub use saved::{SavedRun, StackItem};
pub use suggestion::Suggestion;
pub use tables::{Quad, Tables};
pub use term::{BadTerm, Term, Value};
pub use types::{Datatype, Type};
