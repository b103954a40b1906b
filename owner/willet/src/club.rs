//! `willet club`: a directory of Linked Data served on loopback, with faults on demand.

use crate::args::{ClubArgs, Fault};
use crate::failure::Failure;
use rdf::Format;
use std::collections::hash_map::DefaultHasher;
use std::collections::HashMap;
use std::hash::{Hash, Hasher};
use std::io::Write;
use std::path::{Component, Path, PathBuf};
use std::process::ExitCode;
use std::sync::{Arc, Mutex, PoisonError};
use std::time::Duration;
use tiny_http::{Header, Request, Response, Server};

/// What a club does.
struct Club {
    directory: PathBuf,
    redirects: HashMap<String, String>,
    slow: HashMap<String, Duration>,
    faults: Mutex<HashMap<String, Fault>>,
}

/// An answer to a request.
struct Reply {
    status: u16,
    headers: Vec<(&'static str, String)>,
    body: Vec<u8>,
}

fn reply(status: u16, body: &str) -> Reply {
    Reply {
        status,
        headers: vec![("Content-Type", "text/plain; charset=utf-8".to_owned())],
        body: body.as_bytes().to_vec(),
    }
}

/// Serves until it is stopped. The first line on standard output is the address.
pub fn club(args: &ClubArgs) -> Result<ExitCode, Failure> {
    if !args.directory.is_dir() {
        return Err(Failure::file(&args.directory, "this is no directory"));
    }
    let server = Server::http(("127.0.0.1", args.port)).map_err(|error| Failure::at("127.0.0.1", error))?;
    println!("http://{}/", server.server_addr());
    std::io::stdout().flush().map_err(|error| Failure::at("standard output", error))?;
    let club = Arc::new(Club {
        directory: args.directory.clone(),
        redirects: args.redirect.iter().cloned().collect(),
        slow: args.slow.iter().cloned().collect(),
        faults: Mutex::new(args.fail.iter().cloned().collect()),
    });
    for request in server.incoming_requests() {
        let club = Arc::clone(&club);
        std::thread::spawn(move || club.answer(request));
    }
    Ok(ExitCode::SUCCESS)
}

impl Club {
    fn answer(&self, request: Request) {
        let path = request.url().split('?').next().unwrap_or_default().to_owned();
        if let Some(time) = self.slow.get(&path) {
            std::thread::sleep(*time);
        }
        let tag = request.headers().iter().find(|header| header.field.equiv("If-None-Match"));
        let reply = self.reply(&path, tag.map(|header| header.value.as_str()));
        println!("{} {path} {}", request.method(), reply.status);
        let mut response = Response::from_data(reply.body).with_status_code(reply.status);
        for (name, value) in reply.headers {
            if let Ok(header) = Header::from_bytes(name, value) {
                response.add_header(header);
            }
        }
        if let Err(error) = request.respond(response) {
            eprintln!("{path}: {error}");
        }
    }

    fn reply(&self, path: &str, tag: Option<&str>) -> Reply {
        if let Some(status) = self.fault(path) {
            return reply(status, "a fault on demand\n");
        }
        if let Some(target) = self.redirects.get(path) {
            let headers = vec![("Location", target.clone())];
            return Reply { status: 303, headers, body: Vec::new() };
        }
        let found = self.file(path).and_then(|(file, format)| Some((std::fs::read(file).ok()?, format)));
        let Some((body, format)) = found else { return reply(404, "no such page\n") };
        let mut hasher = DefaultHasher::new();
        body.hash(&mut hasher);
        let own = format!("\"{:016x}\"", hasher.finish());
        let same = tag == Some(own.as_str());
        let headers = vec![("Content-Type", format.media_type().to_owned()), ("ETag", own)];
        Reply { status: if same { 304 } else { 200 }, headers, body: if same { Vec::new() } else { body } }
    }

    /// The status of a fault that is due.
    fn fault(&self, path: &str) -> Option<u16> {
        let mut faults = self.faults.lock().unwrap_or_else(PoisonError::into_inner);
        let fault = faults.get_mut(path)?;
        fault.count = fault.count.checked_sub(1)?;
        Some(fault.status)
    }

    /// The file of a path below the directory, with or without its extension.
    fn file(&self, path: &str) -> Option<(PathBuf, Format)> {
        let below = Path::new(path.trim_start_matches('/'));
        if !below.components().all(|part| matches!(part, Component::Normal(_))) {
            return None;
        }
        let plain = std::iter::once(self.directory.join(below));
        let with =
            Format::extensions().map(|extension| self.directory.join(format!("{}.{extension}", below.display())));
        plain
            .chain(with)
            .find_map(|file| Some((Format::of_path(&file)?, file)).filter(|(_, file)| file.is_file()))
            .map(|(f, p)| (p, f))
    }
}
