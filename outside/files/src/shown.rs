//! The program `show` beside the independent implementation.

use reference::file::show;
use std::fs::{self, File};
use std::io::{ErrorKind, Write};
use std::path::PathBuf;
use std::process::{Command, Output, Stdio};
use std::thread;

/// A program, and the file that its standard input is read from.
pub struct Program {
    pub path: PathBuf,
    pub input: PathBuf,
}

impl Program {
    fn run(&self, bytes: &[u8]) -> std::io::Result<Output> {
        fs::write(&self.input, bytes)?;
        Command::new(&self.path).stdin(File::open(&self.input)?).output()
    }

    /// The same through a pipe, in small pieces. The program need not take all of them.
    fn run_piped(&self, bytes: &[u8]) -> std::io::Result<Output> {
        let mut command = Command::new(&self.path);
        let mut child =
            command.stdin(Stdio::piped()).stdout(Stdio::piped()).stderr(Stdio::piped()).spawn()?;
        let mut stdin = child.stdin.take().expect("a pipe");
        let pieces = bytes.to_vec();
        let writer = thread::spawn(move || pieces.chunks(701).try_for_each(|piece| stdin.write_all(piece)));
        let output = child.wait_with_output();
        match writer.join().expect("the writing thread ends") {
            Err(error) if error.kind() != ErrorKind::BrokenPipe => Err(error),
            _ => output,
        }
    }

    /// Compares what the program prints, and answers whether that is a picture.
    pub fn compare(&self, bytes: &[u8], piped: bool) -> Result<bool, String> {
        let output = if piped { self.run_piped(bytes) } else { self.run(bytes) };
        let output =
            output.map_err(|error| format!("show: {} does not run: {error}", self.path.display()))?;
        if !output.status.success() || !output.stderr.is_empty() {
            return Err(format!("show: it ended with {}", output.status));
        }
        let want = show(bytes);
        if output.stdout != want.as_bytes() {
            let start = |text: &[u8]| String::from_utf8_lossy(&text[..text.len().min(300)]).into_owned();
            let (got, want) = (start(&output.stdout), start(want.as_bytes()));
            return Err(format!("show: another text\n  got      {got:?}\n  expected {want:?}"));
        }
        Ok(want.starts_with("width"))
    }
}
