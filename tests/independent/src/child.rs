//! A proved program run on given input.

use std::io::{Read, Write};
use std::path::Path;
use std::process::{Command, Stdio};
use std::thread;

/// Bytes read beyond those wanted, before the program is stopped.
const MORE: u64 = 128;

pub struct Outcome {
    pub output: Vec<u8>,
    /// Whether it ended by itself with status 0.
    pub ended_well: bool,
}

/// Runs `program` in `folder` on `input` and reads its output to the end, or
/// to a little more than `wanted` bytes.
pub fn run(
    program: &Path,
    folder: &Path,
    input: Vec<u8>,
    wanted: usize,
) -> Result<Outcome, String> {
    let failure = |error| format!("{}: {error}", program.display());
    let mut child = Command::new(program)
        .current_dir(folder)
        .stdin(Stdio::piped())
        .stdout(Stdio::piped())
        .spawn()
        .map_err(failure)?;
    let mut stdin = child.stdin.take().ok_or("no standard input")?;
    let stdout = child.stdout.take().ok_or("no standard output")?;
    // A program that stops reading breaks the pipe; its output then tells.
    let writer = thread::spawn(move || stdin.write_all(&input).is_ok());
    let mut output = Vec::new();
    let read = stdout.take(wanted as u64 + MORE).read_to_end(&mut output);
    read.map_err(failure)?;
    if output.len() > wanted {
        // It may never end by itself; if it has ended, there is none to stop.
        let _ = child.kill();
    }
    let status = child.wait().map_err(failure)?;
    let _ = writer.join();
    Ok(Outcome {
        output,
        ended_well: status.success(),
    })
}
