//! The three worked examples: their types and their rosters, as the files beside them say.

mod common;

use common::{examples, Folder};

/// Checks an example and runs it over its pages, both as text and as a card.
fn shows(example: &str, name: &str, pages: &str, code: i32) {
    let folder = Folder::new();
    let from = examples().join(example);
    folder.copy(&from.join(format!("{name}.page")), "script.page");
    let read = |file: &str| std::fs::read_to_string(from.join(file)).expect("what is expected");
    let types = folder.willet(&["check", "script.page"]).out;
    assert_eq!(types.replace("script.page", &format!("{name}.page")), read("types.txt"));
    folder.willet(&["card", "script.page", "-o", "script.card"]);
    for script in ["script.page", "script.card"] {
        let pages = from.join(pages).display().to_string();
        let said = folder.willet(&["run", script, "-q", "--from", &pages, "--now", "2026-03-01T12:00:00Z"]);
        assert_eq!((said.code, said.out), (Some(code), read(&format!("{}.txt", pages_name(&pages)))), "{}", said.err);
    }
}

/// `pages` for the pages, `later` for those that are written later.
fn pages_name(pages: &str) -> &str {
    pages.rsplit('/').next().unwrap_or(pages)
}

#[test]
fn the_season() {
    shows("season", "yard", "pages", 3);
    shows("season", "yard", "later", 0);
}

#[test]
fn from_club_to_club() {
    shows("clubs", "clubs", "pages", 0);
}

#[test]
fn names_and_measures() {
    shows("names", "names", "pages", 0);
}

/// The first screen of the README is what the commands print.
#[test]
fn the_readme_shows_the_season() {
    let read = |path: &str| std::fs::read_to_string(examples().join(path)).expect("a file of the season");
    let readme = read("../../README.md");
    let folder = Folder::new();
    folder.write("mistake.page", read("season/mistake.page"));
    let said = folder.willet(&["check", "mistake.page"]);
    assert_eq!(said.err, read("season/mistake.txt"));
    for file in ["season/yard.page", "season/types.txt", "season/mistake.txt", "season/later.txt"] {
        let text = read(file);
        let shown = text.lines().filter(|line| !line.starts_with('#')).collect::<Vec<_>>();
        assert!(readme.contains(shown.join("\n").trim()), "the README does not show {file} as it is");
    }
}
