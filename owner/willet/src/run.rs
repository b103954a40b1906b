//! `willet run`.

use crate::args::RunArgs;
use crate::failure::Failure;
use crate::host::{state_in_words, Host};
use crate::{roster, NOT_ENDED};
use indicatif::{ProgressBar, ProgressStyle};
use std::process::ExitCode;
use std::time::Duration;
use willetcoffer::State;

/// What is said while a run goes on: lines on standard error, and in a terminal a sign of life below them.
struct Progress {
    bar: ProgressBar,
    quiet: bool,
}

impl Progress {
    fn new(quiet: bool) -> Progress {
        let bar = if quiet { ProgressBar::hidden() } else { ProgressBar::new_spinner() };
        if let Ok(style) = ProgressStyle::with_template("{spinner} {elapsed} {msg}") {
            bar.set_style(style);
        }
        bar.enable_steady_tick(Duration::from_millis(100));
        Progress { bar, quiet }
    }

    fn say(&self, line: &str) {
        self.bar.set_message(line.lines().next().unwrap_or_default().to_owned());
        if !self.quiet {
            self.bar.suspend(|| eprintln!("{line}"));
        }
    }
}

/// Runs a card or a script, and prints the roster.
pub fn run(args: &RunArgs) -> Result<ExitCode, Failure> {
    let progress = Progress::new(args.quiet);
    let mut host = Host::load(&args.script, &args.source, args.now, args.steps)?;
    let mut state = host.advance(&mut |line| progress.say(line))?;
    while args.watch && state == State::Waiting {
        progress.say(&state_in_words(state, host.season.steps));
        state = watch(&mut host, args, &progress)?;
    }
    progress.say(&state_in_words(state, host.season.steps));
    progress.bar.finish_and_clear();
    print!("{}", roster::text(&host.season.roster, args.format, &host.season.legend.prefixes)?);
    Ok(if state == State::Ended { ExitCode::SUCCESS } else { ExitCode::from(NOT_ENDED) })
}

/// Waits for a page to be rewritten, and goes on. A page that cannot be had just now is asked for again.
fn watch(host: &mut Host, args: &RunArgs, progress: &Progress) -> Result<State, Failure> {
    loop {
        std::thread::sleep(args.every);
        match host.refresh(&mut |line| progress.say(line)) {
            Ok(true) => return host.advance(&mut |line| progress.say(line)),
            Ok(false) => {}
            Err(failure) => progress.bar.suspend(|| failure.show()),
        }
    }
}
