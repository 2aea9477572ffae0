//! A server for a test: the one at the port BOLT_PORT, else a `bolt_server` that ends with the test.

use std::env;
use std::io::{self, BufRead, BufReader, Write};
use std::path::{Path, PathBuf};
use std::process::{Child, Command, Stdio};
use std::thread;

pub struct Server {
    pub port: u16,
    process: Option<Child>,
}

impl Server {
    /// Starts a server, or takes the one at BOLT_PORT. If no server is built, it says which command builds it and
    /// returns None: the test is skipped.
    pub fn start() -> Option<Server> {
        if let Ok(port) = env::var("BOLT_PORT") {
            return Some(Server { port: port.parse().expect("BOLT_PORT is the number of a port"), process: None });
        }
        let Some(program) = built("bolt_server") else {
            let test = thread::current().name().unwrap_or_default().to_owned();
            let line = format!("skipped {test}: run `scripts/build_unproved bolt_server`, or set BOLT_PORT\n");
            // Cargo hides what macros print in a test that passes. It doesn't hide this.
            let _ = io::stderr().write_all(line.as_bytes());
            return None;
        };
        let mut process = Command::new(&program)
            .arg("0")
            .stdin(Stdio::null())
            .stdout(Stdio::piped())
            .stderr(Stdio::null())
            .spawn()
            .unwrap_or_else(|error| panic!("{}: {error}", program.display()));
        let mut output = BufReader::new(process.stdout.take().unwrap());
        let mut server = Server { port: 0, process: Some(process) };
        let mut line = String::new();
        output.read_line(&mut line).unwrap();
        let port = line.strip_prefix("listening ").and_then(|it| it.trim_end().parse().ok());
        server.port = port.unwrap_or_else(|| panic!("the server printed {line:?} in place of `listening PORT`"));
        // The server blocks if nobody reads its output.
        thread::spawn(move || io::copy(&mut output, &mut io::sink()));
        Some(server)
    }
}

impl Drop for Server {
    fn drop(&mut self) {
        if let Some(process) = &mut self.process {
            let _ = process.kill();
            let _ = process.wait();
        }
    }
}

/// Finds a built program: in the folder BOLT_BUILT alone if it is set, else in what was built unproved or proved.
fn built(name: &str) -> Option<PathBuf> {
    let out = Path::new(env!("CARGO_MANIFEST_DIR")).join("../out");
    let folders = match env::var_os("BOLT_BUILT") {
        Some(folder) => vec![folder.into()],
        None => vec![out.join("unproved"), out.join("proved")],
    };
    folders.into_iter().map(|it| it.join(name)).find(|it| it.is_file())
}
