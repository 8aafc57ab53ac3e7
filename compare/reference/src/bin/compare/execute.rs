//! Running a program once: bytes in, bytes out.

use std::ffi::OsString;
use std::fs::File;
use std::io::{self, Read, Write};
use std::os::unix::process::ExitStatusExt;
use std::path::{Path, PathBuf};
use std::process::{Command, Stdio};
use std::sync::mpsc;
use std::thread;
use std::time::{Duration, Instant};

const TIMEOUT: Duration = Duration::from_secs(20);
/// No answer to 65,536 bytes comes near this.
const MOST_OUTPUT: u64 = 4 << 20;

#[derive(Clone, Debug, PartialEq, Eq, PartialOrd, Ord)]
pub enum End {
    Exit(i32),
    Signal(i32),
    Timeout,
    /// A call of the library touched memory that it must not, or the like.
    Wrong(String),
}

#[derive(Clone, Debug, PartialEq, Eq)]
pub struct Output {
    pub bytes: Vec<u8>,
    pub end: End,
}

/// How the text reaches standard input.
#[derive(Clone, Copy, Debug, PartialEq, Eq)]
pub enum Feed {
    Pipe,
    /// In pieces, the first of this many bytes, so that reads come back short.
    Pieces(usize),
    File,
}

pub struct Runner {
    scratch: PathBuf,
}

impl Runner {
    pub fn new() -> io::Result<Runner> {
        let scratch = std::env::temp_dir().join(format!("prepay-compare-{}", std::process::id()));
        Ok(Runner { scratch })
    }

    pub fn run(&self, program: &Path, args: &[OsString], text: &[u8], feed: Feed) -> io::Result<Output> {
        let stdin = if feed == Feed::File {
            std::fs::write(&self.scratch, text)?;
            Stdio::from(File::open(&self.scratch)?)
        } else {
            Stdio::piped()
        };
        let started = Instant::now();
        let mut child =
            Command::new(program).args(args).stdin(stdin).stdout(Stdio::piped()).stderr(Stdio::null()).spawn()?;

        let stdout = child.stdout.take().unwrap();
        let (send, receive) = mpsc::channel();
        let reader = thread::spawn(move || {
            let mut bytes = Vec::new();
            let _ = stdout.take(MOST_OUTPUT).read_to_end(&mut bytes);
            let _ = send.send(bytes);
        });
        let mut writer = None;
        if let Some(mut stdin) = child.stdin.take() {
            // A write error only means that the program stopped reading.
            let text = text.to_vec();
            let write = move || match feed {
                Feed::Pieces(first) => {
                    let (a, b) = text.split_at(first.min(text.len()));
                    let (b, c) = b.split_at(b.len() / 2);
                    for piece in [a, b, c] {
                        let _ = stdin.write_all(piece);
                        thread::sleep(Duration::from_millis(1));
                    }
                }
                _ => {
                    let _ = stdin.write_all(&text);
                }
            };
            writer = Some(thread::spawn(write));
        }

        let bytes = receive.recv_timeout(TIMEOUT);
        let mut timed_out = bytes.is_err();
        let status = loop {
            if timed_out {
                let _ = child.kill();
                break child.wait()?;
            }
            match child.try_wait()? {
                Some(status) => break status,
                None => thread::sleep(Duration::from_micros(50)),
            }
            timed_out = started.elapsed() > TIMEOUT;
        };
        let _ = reader.join();
        if let Some(w) = writer {
            let _ = w.join();
        }
        let end = match (timed_out, status.code()) {
            (true, _) => End::Timeout,
            (_, Some(code)) => End::Exit(code),
            _ => End::Signal(status.signal().unwrap_or(0)),
        };
        Ok(Output { bytes: bytes.unwrap_or_default(), end })
    }
}

impl Drop for Runner {
    fn drop(&mut self) {
        let _ = std::fs::remove_file(&self.scratch);
    }
}
