//! `willet`: the owner's command over the proved engine.
//!
//! | module | what it does |
//! |---|---|
//! | `args`, `failure`, `files` | the command line; what went wrong, as it is shown; scripts, cards and legends in files |
//! | `commands` | check, card, show, page |
//! | `season`, `roster` | a card from its load to its end, with the answers of its blocks; the roster as table, CSV or JSON |
//! | `origin`, `host` | where pages come from: a directory, or the web; what hands them in |
//! | `schema`, `run`, `publish`, `panel`, `club` | the commands of these names |
#![forbid(unsafe_code)]

mod args;
mod club;
mod commands;
mod failure;
mod files;
mod host;
mod origin;
mod panel;
mod publish;
mod roster;
mod run;
mod schema;
mod season;

use args::{Command, Willet};
use clap::Parser;
use failure::Failure;
use std::process::ExitCode;

/// A run that has not ended: it waits, or its steps are spent.
pub const NOT_ENDED: u8 = 3;

fn command(command: Command) -> Result<ExitCode, Failure> {
    match command {
        Command::Check { file } => commands::check(&file),
        Command::Card { file, output } => commands::card(&file, &output),
        Command::Show { script } => commands::show(&script),
        Command::Page(args) => commands::page(&args),
        Command::Schema(args) => schema::schema(&args),
        Command::Run(args) => run::run(&args),
        Command::Publish(args) => publish::publish(&args),
        Command::Panel(args) => panel::panel(&args),
        Command::Club(args) => club::club(&args),
    }
}

fn main() -> ExitCode {
    command(Willet::parse().command).unwrap_or_else(|failure| {
        failure.show();
        ExitCode::FAILURE
    })
}
