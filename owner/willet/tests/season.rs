//! The season over HTTP on loopback, with a club that redirects, is slow, fails, and rewrites its page; and the same from files.

mod common;

use common::{examples, said, Club, Folder, Secure};
use std::io::{BufRead, BufReader, Read};
use std::process::Stdio;
use std::time::{Duration, Instant};
use willetcoffer::limits::PAGE_LIMIT;
use willetcoffer::page::record_width;

const NOON: &str = "2026-03-01T12:00:00Z";

/// The roster after the yard's first page: what goes faster than 60 and is named in English.
const FIRST: &str = "\
$loco        $name            $speed
-----------  ---------------  ------
club:loco/1  Mallard          126.4
club:loco/5  Flying Scotsman  100.0
(2 answers)
";
/// Its page has ten triples that are records; p:speed takes no string, so one is skipped.
const FIRST_PAGE: &str = "page  http://club.example/yard: 10 records, 1 skipped, 9 quads stored";
const LEFT_OUT: &str = "bytes longer than the";

fn folder() -> Folder {
    let folder = Folder::new();
    folder.copy(&examples().join("season/yard.page"), "yard.page");
    folder.copy(&examples().join("season/pages/yard.ttl"), "pages/yard.ttl");
    folder
}

/// The club closes at 2026-12-31T00:00:00Z.
fn rewrite(folder: &Folder) {
    folder.copy(&examples().join("season/later/yard.ttl"), "pages/yard.ttl");
}

fn run(folder: &Folder, club: &Club, more: &[&str]) -> common::Said {
    let map = club.map();
    let args = [&["run", "yard.page", "--fetch", "--map", &map, "--now", NOON], more].concat();
    folder.willet(&args)
}

#[test]
fn a_page_over_http() {
    let folder = folder();
    let club = Club::open(&folder, &[]);
    let said = run(&folder, &club, &[]);
    assert_eq!(said.code, Some(3), "{}", said.err);
    assert!(said.out.starts_with(FIRST), "{}", said.out);
    assert!(said.err.contains(FIRST_PAGE) && said.err.contains(LEFT_OUT), "{}", said.err);
    assert!(said.err.ends_with("waiting for a change of the pages after 7 steps\n"), "{}", said.err);
}

#[test]
fn a_redirect_is_followed() {
    let folder = folder();
    folder.copy(&examples().join("season/pages/yard.ttl"), "pages/data/yard.ttl");
    let club = Club::open(&folder, &["--redirect", "/yard=/see", "--redirect", "/see=/data/yard.ttl"]);
    let said = run(&folder, &club, &[]);
    assert!(said.out.starts_with(FIRST), "{}{}", said.out, said.err);
}

#[test]
fn a_redirect_without_end_is_an_error() {
    let folder = folder();
    let club = Club::open(&folder, &["--redirect", "/yard=/yard"]);
    let said = run(&folder, &club, &["-q", "--retries", "0"]);
    assert_eq!((said.code, said.out.as_str()), (Some(1), ""));
    assert_eq!(said.err, "error: http://club.example/yard: no answer: reached max redirects (5)\n\n");
}

#[test]
fn a_slow_server_meets_the_time_out() {
    let folder = folder();
    let club = Club::open(&folder, &["--slow", "/yard=5"]);
    let began = Instant::now();
    let said = run(&folder, &club, &["-q", "--timeout", "0.3", "--retries", "1"]);
    assert!(began.elapsed() < Duration::from_secs(4));
    assert_eq!(said.code, Some(1));
    let expected =
        "error: http://club.example/yard: no answer within 0.3 seconds\n = help: --timeout gives it more time\n\n";
    assert_eq!(said.err, expected);
}

#[test]
fn a_failing_server_is_asked_again() {
    let folder = folder();
    let club = Club::open(&folder, &["--fail", "/yard=503:2"]);
    let said = run(&folder, &club, &["-q", "--retries", "1"]);
    assert_eq!(said.err, "error: http://club.example/yard: the server answers 503 Service Unavailable\n\n");
    let club = Club::open(&folder, &["--fail", "/yard=503:2"]);
    assert!(run(&folder, &club, &["-q", "--retries", "2"]).out.starts_with(FIRST));
}

#[test]
fn a_page_that_is_not_there() {
    let folder = Folder::new();
    folder.copy(&examples().join("season/yard.page"), "yard.page");
    folder.write("pages/other.ttl", "");
    let club = Club::open(&folder, &[]);
    let said = run(&folder, &club, &["-q"]);
    assert_eq!(
        (said.code, said.err.as_str()),
        (Some(1), "error: http://club.example/yard: the server answers 404 Not Found\n\n")
    );
}

#[test]
fn a_page_over_the_limits() {
    let folder = folder();
    let club = Club::open(&folder, &[]);
    let said = run(&folder, &club, &["-q", "--max-bytes", "100"]);
    let expected = "error: http://club.example/yard: the page has more than 100 bytes\n = help: --max-bytes takes a longer one\n\n";
    assert_eq!(said.err, expected);
    let width = record_width(0x83).expect("the width of an integer's record");
    let count = PAGE_LIMIT / width + 1;
    let many: String = (0..count).map(|n| format!("<http://x.example/{n}> <http://p.example/speed> {n} .\n")).collect();
    folder.write("pages/yard.ttl", many);
    let said = run(&folder, &club, &["-q"]);
    let (bytes, over) = (count * width, count * width - PAGE_LIMIT);
    let what = format!("{bytes} bytes of records, {over} more than 65536: page over its limit, or a bad record in it");
    let help = "publish the stock on several pages, each a graph of its own";
    assert_eq!(said.err, format!("error[13]: http://club.example/yard: {what}\n = help: {help}\n\n"));
}

/// What a run over a page of these triples says.
fn over(folder: &Folder, triples: impl Iterator<Item = String>) -> String {
    folder.write("pages/yard.ttl", triples.collect::<String>());
    let said = folder.willet(&["run", "yard.page", "--from", "pages", "-q"]);
    assert_eq!(said.code, Some(1));
    said.err
}

/// What is said of a page that the store has no room for.
fn refused(page: &str, store: &str) -> String {
    let help = format!("the store holds {store}; 512, 512 and 64 are its limits");
    format!("error[14]: {page}: terms, quads or graphs would pass their limits\n = help: {help}\n\n")
}

#[test]
fn a_store_that_is_full_of_terms() {
    let folder = folder();
    // the card has the yard, 60 and three properties; 254 subjects and as many speeds are one term too many
    let triples = (0..254).map(|n| format!("<http://x.example/{n}> <http://p.example/speed> {n}.5 .\n"));
    assert_eq!(over(&folder, triples), refused("http://club.example/yard", "5 terms, 0 quads and 0 graphs"));
}

#[test]
fn a_store_that_is_full_of_quads() {
    let folder = Folder::new();
    folder.write(
        "two.page",
        "prefix x: <http://x.example/>\nschema x:speed xsd:decimal\nfrom named x:a\nfrom named x:b\n",
    );
    let page = |count: usize| {
        let row = |n| format!("<http://x.example/{}> <http://x.example/speed> {}.5 .\n", n / 16, n % 16);
        (0..count).map(row).collect::<String>()
    };
    folder.write("pages/a.ttl", page(256));
    folder.write("pages/b.ttl", page(257));
    let said = folder.willet(&["run", "two.page", "--from", "pages", "-q"]);
    // two graphs, a property, 16 subjects and 16 speeds
    assert_eq!((said.code, said.err), (Some(1), refused("http://x.example/b", "35 terms, 256 quads and 1 graphs")));
}

#[test]
fn a_sixty_fifth_graph() {
    let folder = Folder::new();
    let script = "prefix x: <http://x.example/>\nschema x:next xsd:anyURI\nfrom named x:all\n\
        do select $g where graph x:all { x:all x:next $g }\nfrom named $g\n";
    folder.write("all.page", script);
    let name = |n: usize| format!("<http://x.example/g{n}>");
    let rows = (0..64).map(|n| format!("<http://x.example/all> <http://x.example/next> {} .\n", name(n)));
    folder.write("pages/all.ttl", rows.collect::<String>());
    (0..64).for_each(|n| folder.write(&format!("pages/g{n}.ttl"), ""));
    let said = folder.willet(&["run", "all.page", "--from", "pages", "-q"]);
    let expected = refused("http://x.example/g63", "66 terms, 64 quads and 64 graphs");
    assert_eq!((said.code, said.err), (Some(1), expected));
}

#[test]
fn a_request_says_what_it_takes() {
    let folder = folder();
    let listener = std::net::TcpListener::bind("127.0.0.1:0").expect("a port");
    let map = format!("http://club.example/=http://{}/", listener.local_addr().expect("its address"));
    let server = std::thread::spawn(move || {
        let (mut stream, _) = listener.accept().expect("a request");
        let lines = BufReader::new(stream.try_clone().expect("the request")).lines().map_while(Result::ok);
        let head: Vec<String> = lines.take_while(|line| !line.is_empty()).collect();
        let answer = b"HTTP/1.1 200 OK\r\nContent-Type: image/png\r\nContent-Length: 0\r\n\r\n";
        std::io::Write::write_all(&mut stream, answer).expect("an answer");
        head
    });
    let said = folder.willet(&["run", "yard.page", "-q", "--fetch", "--map", &map, "--retries", "0"]);
    assert_eq!(said.err, "error: http://club.example/yard: the server sends image/png, which is no Linked Data\n\n");
    let head = server.join().expect("the request");
    assert_eq!(head[0], "GET /yard HTTP/1.1");
    assert!(head.iter().any(|line| line.starts_with("Accept: text/turtle, application/n-triples;q=0.9")), "{head:?}");
    assert!(head.iter().any(|line| line.starts_with("User-Agent: willet/")), "{head:?}");
}

#[test]
fn a_page_that_is_no_turtle() {
    let folder = folder();
    folder.write("pages/yard.ttl", "<a> <b>\n");
    let said = folder.willet(&["run", "yard.page", "--from", "pages", "-q"]);
    assert!(said.err.starts_with("error: http://club.example/yard: no turtle: line "), "{}", said.err);
}

#[test]
fn no_pages_and_no_file() {
    let folder = folder();
    let said = folder.willet(&["run", "yard.page", "-q"]);
    let expected = "error: http://club.example/yard: this page is wanted, and there are no pages\n \
        = help: say where pages come from: --from DIR, or --fetch\n\n";
    assert_eq!(said.err, expected);
    let said = folder.willet(&["run", "yard.page", "-q", "--from", "nowhere"]);
    let expected = "error: http://club.example/yard: there is no file for this page\n = help: put its page at \
        nowhere/club.example/yard.ttl, with or without the host's name, or in another form of Linked Data\n\n";
    assert_eq!(said.err, expected);
}

#[test]
fn a_page_rewritten_between_two_runs() {
    let folder = folder();
    let club = Club::open(&folder, &[]);
    assert_eq!(run(&folder, &club, &[]).code, Some(3));
    rewrite(&folder);
    let said = run(&folder, &club, &["--format", "csv"]);
    let expected = "loco,name,speed\nhttp://club.example/loco/1,Mallard,126.4\n\ncloses\n2026-12-31T00:00:00Z\n";
    assert_eq!((said.code, said.out.as_str()), (Some(0), expected), "{}", said.err);
    let late = ["--now", "2026-12-31T00:00:00Z"];
    let map = club.map();
    let said = folder.willet(&[&["run", "yard.page", "--fetch", "--map", &map][..], &late].concat());
    assert_eq!(said.code, Some(3), "the yard has closed: {}", said.err);
}

#[test]
fn a_page_rewritten_while_a_run_watches() {
    let folder = folder();
    let club = Club::open(&folder, &[]);
    let map = club.map();
    let args = ["run", "yard.page", "--fetch", "--map", &map, "--now", NOON, "--watch", "--every", "0.1"];
    let mut child = folder.command(&args).stdout(Stdio::piped()).stderr(Stdio::piped()).spawn().expect("a run");
    let mut lines = BufReader::new(child.stderr.take().expect("its lines")).lines();
    let waits = lines.by_ref().map_while(Result::ok).any(|line| line.starts_with("waiting"));
    assert!(waits, "the first page does not say when the yard closes");
    rewrite(&folder);
    let rest: Vec<String> = lines.map_while(Result::ok).collect();
    let mut roster = String::new();
    child.stdout.take().expect("its roster").read_to_string(&mut roster).expect("text");
    assert_eq!(child.wait().expect("its end").code(), Some(0));
    assert_eq!(rest[0], "rewritten http://club.example/yard");
    assert_eq!(rest.last().map(String::as_str), Some("ended after 9 steps"));
    // the each block had its answers from the first page; the once block has its own from the second
    assert!(
        roster.starts_with(FIRST)
            && roster.ends_with("$closes\n--------------------\n2026-12-31T00:00:00Z\n(1 answer)\n"),
        "{roster}"
    );
}

#[test]
fn a_panel_without_a_terminal() {
    let folder = folder();
    let args = ["panel", "yard.page", "--from", "pages", "--now", NOON, "--every", "0.1"];
    let mut child = folder.command(&args).stdout(Stdio::piped()).spawn().expect("a panel");
    let mut lines = BufReader::new(child.stdout.take().expect("its lines")).lines().map_while(Result::ok);
    let before: Vec<String> = lines.by_ref().take_while(|line| !line.starts_with("waiting")).collect();
    assert_eq!(
        before.last().map(String::as_str),
        Some("roster  $loco club:loco/5  $name Flying Scotsman  $speed 100.0")
    );
    rewrite(&folder);
    let after: Vec<String> = lines.collect();
    assert!(child.wait().expect("its end").success());
    let expected = ["roster  $closes 2026-12-31T00:00:00Z", "ended after 9 steps"];
    assert_eq!(after[after.len() - 2..], expected);
}

#[test]
fn steps_and_time_have_limits() {
    let folder = folder();
    let said = folder.willet(&["run", "yard.page", "--from", "pages", "--steps", "60001"]);
    assert_eq!(said.code, Some(2));
    assert!(said.err.contains("60001 is not in 0..=60000"), "{}", said.err);
    let said = folder.willet(&["run", "yard.page", "--from", "pages", "--now", "yesterday"]);
    assert!(said.err.contains("a dateTime is a day and a time that there are"), "{}", said.err);
    let said = folder.willet(&["run", "yard.page", "--from", "pages", "--steps", "3", "--now", NOON]);
    assert_eq!(said.code, Some(3));
    assert!(said.err.ends_with("stopped, its steps are spent after 3 steps\n"), "{}", said.err);
}

#[test]
fn a_club_serves_nothing_outside_its_folder() {
    let folder = folder();
    folder.write("secret.ttl", "");
    let club = Club::open(&folder, &[]);
    let port = club.address.trim_start_matches("http://").trim_end_matches('/').to_owned();
    let mut stream = std::net::TcpStream::connect(port).expect("the club");
    std::io::Write::write_all(&mut stream, b"GET /../secret.ttl HTTP/1.0\r\n\r\n").expect("a request");
    let mut answer = String::new();
    stream.read_to_string(&mut answer).expect("an answer");
    assert!(answer.starts_with("HTTP/1.1 404") || answer.starts_with("HTTP/1.0 404"), "{answer}");
}

#[test]
fn https_with_a_trusted_certificate_only() {
    let folder = folder();
    rewrite(&folder);
    let server = Secure::open(&folder);
    let map = format!("http://club.example/yard=https://localhost:{}/yard.ttl", server.port);
    let args = ["run", "yard.page", "-q", "--fetch", "--map", &map, "--now", NOON, "--format", "csv", "--retries", "0"];
    let trusted = folder.command(&args).env("SSL_CERT_FILE", folder.path("pages/cert.pem")).output().expect("a run");
    let trusted = said(trusted);
    assert_eq!(trusted.code, Some(0), "{}", trusted.err);
    let unknown = folder.willet(&args);
    assert_eq!(unknown.code, Some(1));
    assert!(unknown.err.contains("certificate verify failed"), "{}", unknown.err);
}

#[test]
fn a_bad_page_is_asked_for_again() {
    let folder = folder();
    folder.write("pages/yard.ttl", "<a> <b>\n");
    let club = Club::open(&folder, &[]);
    let map = club.map();
    let args = ["panel", "yard.page", "--fetch", "--map", &map, "--now", NOON, "--every", "0.1"];
    let mut child = folder.command(&args).stdout(Stdio::piped()).spawn().expect("a panel");
    let mut lines = BufReader::new(child.stdout.take().expect("its lines")).lines().map_while(Result::ok);
    let bad = "error: http://club.example/yard: no turtle: line ";
    let told = lines.by_ref().filter(|line| line.starts_with(bad)).take(2).count();
    assert_eq!(told, 2, "the same bad page is no page the second time either");
    rewrite(&folder);
    assert_eq!(lines.last().as_deref(), Some("ended after 7 steps"));
    assert!(child.wait().expect("its end").success());
}
