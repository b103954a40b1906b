//! The command line.

use clap::{Args, Parser, Subcommand, ValueEnum};
use std::path::PathBuf;
use std::time::Duration;
use terms::date_time;
use willetcoffer::limits::BUDGET_LIMIT;
use willetcoffer::Value;

/// Page scripts over Linked Data: check them, make cards of them, and run them over the pages that clubs publish.
#[derive(Parser)]
#[command(name = "willet", version)]
pub struct Willet {
    #[command(subcommand)]
    pub command: Command,
}

#[derive(Subcommand)]
pub enum Command {
    /// Print the type of each variable of a script, or what is wrong with it and where
    Check {
        /// A script as text
        file: PathBuf,
    },
    /// Make a card of a script, and beside it a legend with its prefixes and names
    Card {
        /// A script as text
        file: PathBuf,
        /// The card to write
        #[arg(short, long)]
        output: PathBuf,
    },
    /// Print a card as text
    Show {
        #[command(flatten)]
        script: ScriptArgs,
    },
    /// Make a page of Turtle, N-Triples, N-Quads, RDF/XML or RDFa
    Page(PageArgs),
    /// Gather a schema from a page that tells the ranges of properties, and print it as text
    Schema(SchemaArgs),
    /// Run a card or a script, and print the roster
    Run(RunArgs),
    /// Run a card or a script, and write a graph that it has fetched as a page: what the station knows, for others to read
    Publish(PublishArgs),
    /// Show a run on a panel: full screen in a terminal, else as lines
    Panel(PanelArgs),
    /// Serve a directory of Linked Data on loopback, with faults on demand
    Club(ClubArgs),
}

#[derive(Args)]
pub struct ScriptArgs {
    /// A card (.card), or a script as text
    pub file: PathBuf,
    /// The card's legend; by default the file beside it that ends in .legend
    #[arg(long, value_name = "FILE")]
    pub legend: Option<PathBuf>,
}

/// A page as its club publishes it.
#[derive(Args)]
pub struct DataArgs {
    /// A file of Linked Data
    pub file: PathBuf,
    /// The IRI of the page's graph, below which relative IRIs stand; by default the file's own
    #[arg(long, value_name = "IRI")]
    pub graph: Option<String>,
    /// The form of the file; by default its extension tells
    #[arg(long, value_parser = rdf::Format::names().collect::<Vec<_>>())]
    pub format: Option<String>,
    /// A legend or a script, whose prefixes shorten IRIs
    #[arg(long, value_name = "FILE")]
    pub legend: Option<PathBuf>,
}

#[derive(Args)]
pub struct PageArgs {
    #[command(flatten)]
    pub data: DataArgs,
    /// The page to write
    #[arg(short, long)]
    pub output: PathBuf,
}

#[derive(Args)]
pub struct SchemaArgs {
    #[command(flatten)]
    pub data: DataArgs,
    /// The text to write; by default it is printed
    #[arg(short, long)]
    pub output: Option<PathBuf>,
}

#[derive(Args)]
pub struct SourceArgs {
    /// Take the pages from files below this directory
    #[arg(long, value_name = "DIR", conflicts_with = "fetch")]
    pub from: Option<PathBuf>,
    /// Take the pages from the web
    #[arg(long)]
    pub fetch: bool,
    /// Ask for IRIs that begin with FROM at TO instead
    #[arg(long, value_name = "FROM=TO", value_parser = pair)]
    pub map: Vec<(String, String)>,
    /// Seconds that a fetch may take
    #[arg(long, value_name = "SECONDS", default_value = "10", value_parser = seconds)]
    pub timeout: Duration,
    /// Bytes that a fetched text may have
    #[arg(long, value_name = "BYTES", default_value_t = 1_048_576)]
    pub max_bytes: u64,
    /// How often a fetch is tried again
    #[arg(long, value_name = "COUNT", default_value_t = 2)]
    pub retries: u32,
}

#[derive(Args)]
pub struct RunArgs {
    #[command(flatten)]
    pub script: ScriptArgs,
    #[command(flatten)]
    pub source: SourceArgs,
    /// How the roster is printed
    #[arg(long, value_enum, default_value_t = Style::Table)]
    pub format: Style,
    /// The time of the run, as 2026-03-01T12:00:00Z; by default that of the clock
    #[arg(long, value_name = "TIME", value_parser = time)]
    pub now: Option<i64>,
    /// Steps that the run may take
    #[arg(long, default_value_t = BUDGET_LIMIT, value_parser = clap::value_parser!(u64).range(..=BUDGET_LIMIT))]
    pub steps: u64,
    /// While the script waits, look for rewritten pages and go on
    #[arg(long)]
    pub watch: bool,
    /// Seconds between two looks at the pages
    #[arg(long, value_name = "SECONDS", default_value = "10", value_parser = seconds)]
    pub every: Duration,
    /// Say nothing but the roster
    #[arg(short, long)]
    pub quiet: bool,
}

#[derive(Args)]
pub struct PublishArgs {
    #[command(flatten)]
    pub script: ScriptArgs,
    #[command(flatten)]
    pub source: SourceArgs,
    /// The page to write: Turtle (.ttl), N-Triples (.nt), or the records themselves (.records)
    #[arg(short, long)]
    pub output: PathBuf,
    /// The IRI of the graph; by default the only one that is fetched
    #[arg(long, value_name = "IRI")]
    pub graph: Option<String>,
    /// The time of the run; by default that of the clock
    #[arg(long, value_name = "TIME", value_parser = time)]
    pub now: Option<i64>,
    /// Steps that the run may take
    #[arg(long, default_value_t = BUDGET_LIMIT, value_parser = clap::value_parser!(u64).range(..=BUDGET_LIMIT))]
    pub steps: u64,
    /// Say nothing of the run
    #[arg(short, long)]
    pub quiet: bool,
}

#[derive(Args)]
pub struct PanelArgs {
    #[command(flatten)]
    pub script: ScriptArgs,
    #[command(flatten)]
    pub source: SourceArgs,
    /// The time of the run; by default that of the clock
    #[arg(long, value_name = "TIME", value_parser = time)]
    pub now: Option<i64>,
    /// Seconds between two looks at the pages
    #[arg(long, value_name = "SECONDS", default_value = "10", value_parser = seconds)]
    pub every: Duration,
}

#[derive(Args)]
pub struct ClubArgs {
    /// The directory to serve
    pub directory: PathBuf,
    /// The port on 127.0.0.1; 0 takes a free one
    #[arg(long, default_value_t = 0)]
    pub port: u16,
    /// Answer PATH with 303 See Other and TARGET
    #[arg(long, value_name = "PATH=TARGET", value_parser = pair)]
    pub redirect: Vec<(String, String)>,
    /// Answer PATH only after so many seconds
    #[arg(long, value_name = "PATH=SECONDS", value_parser = slow)]
    pub slow: Vec<(String, Duration)>,
    /// Answer PATH with STATUS, the first COUNT times (or always)
    #[arg(long, value_name = "PATH=STATUS[:COUNT]", value_parser = fault)]
    pub fail: Vec<(String, Fault)>,
}

/// How a roster is printed.
#[derive(Clone, Copy, PartialEq, Eq, ValueEnum)]
pub enum Style {
    /// Columns for people
    Table,
    /// Comma-separated values
    Csv,
    /// The W3C's form of query results, a table in each
    Json,
}

/// A fault of a club: a status, and how often.
#[derive(Clone, Copy, PartialEq, Eq, Debug)]
pub struct Fault {
    pub status: u16,
    pub count: u32,
}

fn pair(text: &str) -> Result<(String, String), String> {
    let (left, right) = text.split_once('=').ok_or("an `=` is missing")?;
    Ok((left.to_owned(), right.to_owned()))
}

fn seconds(text: &str) -> Result<Duration, String> {
    let seconds: f64 = text.parse().map_err(|_| "not a number of seconds".to_owned())?;
    Duration::try_from_secs_f64(seconds).map_err(|error| error.to_string())
}

fn slow(text: &str) -> Result<(String, Duration), String> {
    let (path, text) = pair(text)?;
    Ok((path, seconds(&text)?))
}

fn fault(text: &str) -> Result<(String, Fault), String> {
    let (path, text) = pair(text)?;
    let (status, count) = text.split_once(':').unwrap_or((&text, "4294967295"));
    let status = status.parse().map_err(|_| "not a status".to_owned())?;
    let count = count.parse().map_err(|_| "not a count".to_owned())?;
    Ok((path, Fault { status, count }))
}

fn time(text: &str) -> Result<i64, String> {
    match date_time(text).map_err(|error| error.to_string())?.value() {
        Value::DateTime(seconds) => Ok(seconds),
        _ => Err("not a dateTime".to_owned()),
    }
}
