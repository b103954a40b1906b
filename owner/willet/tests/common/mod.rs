//! Running `willet` in a folder of its own.
#![allow(dead_code)] // each test file uses a part of this

use std::io::{BufRead, BufReader};
use std::path::{Path, PathBuf};
use std::process::{Child, Command, Output, Stdio};
use tempfile::TempDir;

/// A folder that goes when the test ends.
pub struct Folder {
    dir: TempDir,
}

/// What a command printed.
pub struct Said {
    pub code: Option<i32>,
    pub out: String,
    pub err: String,
}

impl Folder {
    pub fn new() -> Folder {
        Folder { dir: TempDir::new().expect("a temporary folder") }
    }

    pub fn path(&self, name: &str) -> PathBuf {
        self.dir.path().join(name)
    }

    /// Writes a file at once: nobody reads half of it.
    pub fn write(&self, name: &str, bytes: impl AsRef<[u8]>) {
        let (path, new) = (self.path(name), self.path("new file"));
        std::fs::create_dir_all(path.parent().expect("a folder")).expect("a folder");
        std::fs::write(&new, bytes).and_then(|()| std::fs::rename(new, path)).expect("a file");
    }

    /// Copies an example's files.
    pub fn copy(&self, from: &Path, name: &str) {
        self.write(name, std::fs::read(from).expect("an example"));
    }

    pub fn command(&self, args: &[&str]) -> Command {
        let mut command = Command::new(env!("CARGO_BIN_EXE_willet"));
        command.args(args).current_dir(self.dir.path());
        command
    }

    pub fn willet(&self, args: &[&str]) -> Said {
        said(self.command(args).output().expect("willet runs"))
    }
}

pub fn said(output: Output) -> Said {
    let text = |bytes| String::from_utf8(bytes).expect("UTF-8");
    Said { code: output.status.code(), out: text(output.stdout), err: text(output.stderr) }
}

/// A club on loopback; it closes when the test ends.
pub struct Club {
    child: Child,
    pub address: String,
}

impl Club {
    pub fn open(folder: &Folder, args: &[&str]) -> Club {
        let mut child = folder.command(&["club", "pages"]).args(args).stdout(Stdio::piped()).spawn().expect("a club");
        let mut address = String::new();
        let out = child.stdout.take().expect("its output");
        let mut reader = BufReader::new(out);
        reader.read_line(&mut address).expect("its address");
        // the club goes on printing what it answers
        std::thread::spawn(move || reader.lines().for_each(drop));
        Club { child, address: address.trim().to_owned() }
    }

    /// The argument that leads a run's requests here.
    pub fn map(&self) -> String {
        format!("http://club.example/={}", self.address)
    }
}

impl Drop for Club {
    fn drop(&mut self) {
        let _ = self.child.kill();
        let _ = self.child.wait();
    }
}

/// A server with a certificate of its own, `cert.pem`; it closes when the test ends.
pub struct Secure {
    child: Child,
    pub port: String,
}

impl Secure {
    pub fn open(folder: &Folder) -> Secure {
        let openssl = |args: &[&str]| {
            let mut command = Command::new("openssl");
            command.args(args).current_dir(folder.path("pages")).stdin(Stdio::null()).stderr(Stdio::null());
            command
        };
        let certificate =
            ["req", "-x509", "-newkey", "rsa:2048", "-nodes", "-keyout", "key.pem", "-out", "cert.pem", "-subj"];
        let names = ["/CN=localhost", "-addext", "subjectAltName=DNS:localhost"];
        assert!(openssl(&[&certificate[..], &names].concat()).status().expect("openssl").success());
        let serve = ["s_server", "-WWW", "-accept", "127.0.0.1:0", "-key", "key.pem", "-cert", "cert.pem"];
        let mut child = openssl(&serve).stdout(Stdio::piped()).spawn().expect("openssl");
        let mut lines = BufReader::new(child.stdout.take().expect("its output")).lines().map_while(Result::ok);
        let accept = lines.find_map(|line| line.strip_prefix("ACCEPT ").map(str::to_owned)).expect("its address");
        std::thread::spawn(move || lines.for_each(drop));
        let port = accept.rsplit(':').next().unwrap_or_default().to_owned();
        Secure { child, port }
    }
}

impl Drop for Secure {
    fn drop(&mut self) {
        let _ = self.child.kill();
        let _ = self.child.wait();
    }
}

/// The folder of the examples.
pub fn examples() -> PathBuf {
    Path::new(env!("CARGO_MANIFEST_DIR")).join("../examples")
}
