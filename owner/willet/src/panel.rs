//! `willet panel`: the display of a panel with no keyboard.

mod screen;

use crate::args::PanelArgs;
use crate::failure::Failure;
use crate::host::{state_in_words, Host};
use crate::roster::cells;
use crate::season::Season;
use screen::{Screen, View};
use std::io::IsTerminal;
use std::process::ExitCode;
use std::time::Duration;
use willetcoffer::limits::BUDGET_LIMIT;
use willetcoffer::State;

/// Lines of events that a panel keeps.
const KEPT: usize = 50;

/// Shows a run until it is stopped, or as lines until it has ended.
pub fn panel(args: &PanelArgs) -> Result<ExitCode, Failure> {
    let host = Host::load(&args.script, &args.source, args.now, BUDGET_LIMIT)?;
    if std::io::stdout().is_terminal() {
        full_screen(host, args)
    } else {
        lines(host, args.every)
    }
}

/// Goes on; after the first turn with the pages that were rewritten, and anew where the script had ended over their old ones.
fn go_on(host: &mut Host, last: Option<State>, first: bool, say: &mut dyn FnMut(&str)) -> Result<State, Failure> {
    let rewritten = !first && host.refresh(say)?;
    if rewritten && last == Some(State::Ended) {
        host.season.restart().map_err(|refusal| Failure::refused("the card", refusal))?;
    }
    host.advance(say)
}

/// A turn of the panel: what it came to, or the last state where something cannot be had; that is told and asked for again.
fn turn(host: &mut Host, last: Option<State>, first: bool, say: &mut dyn FnMut(&str)) -> Option<State> {
    match go_on(host, last, first, say) {
        Ok(state) => Some(state),
        Err(failure) => {
            say(&failure.line());
            last
        }
    }
}

/// The rows that came since so many were printed, table by table.
fn new_rows(season: &Season, printed: &mut [usize]) -> Vec<String> {
    let mut lines = Vec::new();
    for (answers, printed) in season.roster.iter().zip(printed) {
        let (head, rows) = cells(answers);
        for row in &rows[*printed..] {
            let pairs: Vec<String> = head.iter().zip(row).map(|(name, cell)| format!("{name} {cell}")).collect();
            lines.push(format!("roster  {}", pairs.join("  ")));
        }
        *printed = rows.len();
    }
    lines
}

fn lines(mut host: Host, every: Duration) -> Result<ExitCode, Failure> {
    let mut printed = vec![0; host.season.roster.len()];
    let mut last = None;
    for round in 0.. {
        let state = turn(&mut host, last, round == 0, &mut |line| println!("{line}"));
        for line in new_rows(&host.season, &mut printed) {
            println!("{line}");
        }
        if let Some(state) = state.filter(|_| state != last) {
            println!("{}", state_in_words(state, host.season.steps));
        }
        if matches!(state, Some(State::Ended | State::Spent)) {
            break;
        }
        last = state;
        std::thread::sleep(every);
    }
    Ok(ExitCode::SUCCESS)
}

fn full_screen(mut host: Host, args: &PanelArgs) -> Result<ExitCode, Failure> {
    let title = args.script.file.display().to_string();
    let mut screen = Screen::open()?;
    let mut events: Vec<String> = Vec::new();
    let mut last = None;
    for round in 0.. {
        last = turn(&mut host, last, round == 0, &mut |line| events.extend(line.lines().map(str::to_owned)));
        events.drain(..events.len().saturating_sub(KEPT));
        let state = last.map_or("no page yet".to_owned(), |state| state_in_words(state, host.season.steps));
        screen.draw(&View { title: &title, roster: &host.season.roster, events: &events, state: &state })?;
        if screen.stopped_within(args.every)? {
            break;
        }
    }
    Ok(ExitCode::SUCCESS)
}

#[cfg(test)]
mod tests {
    use super::*;
    use crate::args::{Command, Willet};
    use clap::Parser;

    const SCRIPT: &str = "schema <http://p.example/name> xsd:string\nfrom named <http://club.example/yard>\n\
        do select $s, $name where graph <http://club.example/yard> { $s <http://p.example/name> $name }\n";

    fn page(names: &[&str]) -> String {
        names.iter().map(|name| format!("<http://club.example/1> <http://p.example/name> \"{name}\" .\n")).collect()
    }

    #[test]
    fn an_ended_script_runs_anew_over_rewritten_pages() {
        let folder = tempfile::tempdir().expect("a folder");
        let (script, yard) = (folder.path().join("yard.page"), folder.path().join("yard.ttl"));
        std::fs::write(&script, SCRIPT).expect("a script");
        let line = format!("willet panel {} --from {}", script.display(), folder.path().display());
        let Command::Panel(args) = Willet::parse_from(line.split(' ')).command else { panic!("a panel") };
        let mut host = Host::load(&args.script, &args.source, args.now, BUDGET_LIMIT).expect("it loads");
        let names = |host: &Host| cells(&host.season.roster[0]).1.concat();

        let mut said = Vec::new();
        assert_eq!(turn(&mut host, None, true, &mut |line| said.push(line.to_owned())), None);
        assert_eq!(said[1], "error: http://club.example/yard: there is no file for this page");
        let mut silent = |_: &str| ();
        std::fs::write(&yard, page(&["Mallard", "Rocket"])).expect("a page");
        assert_eq!(turn(&mut host, None, false, &mut silent), Some(State::Ended));
        assert_eq!(names(&host), ["http://club.example/1", "Mallard", "http://club.example/1", "Rocket"]);
        assert_eq!(turn(&mut host, Some(State::Ended), false, &mut silent), Some(State::Ended));
        std::fs::write(&yard, page(&["Adler"])).expect("a page");
        assert_eq!(turn(&mut host, Some(State::Ended), false, &mut silent), Some(State::Ended));
        assert_eq!(names(&host), ["http://club.example/1", "Adler"]);
    }
}
