//! Runs of the report program and the cable crew's.

use std::io::{self, ErrorKind, Read, Write};
use std::path::Path;
use std::process::{Child, ChildStdin, Command, Stdio};
use std::thread;
use std::time::{Duration, Instant};

/// How many bytes of its input a program reads.
pub const MOST_INPUT: usize = 32_768;

/// So long that the program has likely taken what was sent and waits for more: a read is likely, not certain, to come short.
const PAUSE: Duration = Duration::from_millis(4);

/// A program that runs longer is killed.
const TIME_LIMIT: Duration = Duration::from_secs(60);
/// The time between two looks whether the program has ended.
const LOOK_AGAIN: Duration = Duration::from_micros(100);

/// What a run of a program leaves.
#[derive(PartialEq, Eq)]
pub struct Run {
    pub output: Vec<u8>,
    pub errors: Vec<u8>,
    pub end: End,
}

/// How a run ends.
#[derive(Clone, Copy, PartialEq, Eq)]
pub enum End {
    Status(i32),
    Signal,
    TimeLimit,
}

impl Run {
    /// A run that prints the lines, and nothing else, and succeeds.
    pub fn of_lines(lines: String) -> Run {
        Run { output: lines.into_bytes(), errors: Vec::new(), end: End::Status(0) }
    }

    pub fn show(&self) -> String {
        let output = String::from_utf8_lossy(&self.output);
        let errors = match String::from_utf8_lossy(&self.errors) {
            none if none.is_empty() => String::new(),
            errors => format!("on standard error: {errors}\n"),
        };
        let end = match self.end {
            End::Status(status) => format!("ended with status {status}"),
            End::Signal => "ended by a signal".to_string(),
            End::TimeLimit => format!("did not end within {} seconds", TIME_LIMIT.as_secs()),
        };
        format!("{output}{errors}{end}\n")
    }
}

/// Runs a program with the input, sent with a pause at each of the rising offsets.
pub fn run(program: &Path, input: &[u8], pauses: &[usize]) -> io::Result<Run> {
    let mut command = Command::new(program);
    let piped = command.stdin(Stdio::piped()).stdout(Stdio::piped()).stderr(Stdio::piped());
    let mut child = piped.spawn()?;
    let (to_program, output, errors) = (child.stdin.take(), child.stdout.take(), child.stderr.take());
    let end = thread::spawn(move || wait(child));
    match to_program.map_or(Ok(()), |pipe| send(pipe, input, pauses)) {
        // A program that has read as much as it may need not wait for the rest.
        Err(error) if error.kind() != ErrorKind::BrokenPipe => return Err(error),
        _ => {}
    }
    let (output, errors) = (read_to_end(output)?, read_to_end(errors)?);
    let end = end.join().expect("waiting does not panic")?;
    Ok(Run { output, errors, end })
}

fn send(mut pipe: ChildStdin, input: &[u8], pauses: &[usize]) -> io::Result<()> {
    let mut sent = 0;
    for &pause in pauses.iter().filter(|&&pause| pause <= input.len()) {
        pipe.write_all(&input[sent..pause])?;
        thread::sleep(PAUSE);
        sent = pause;
    }
    pipe.write_all(&input[sent..])
}

fn read_to_end(pipe: Option<impl Read>) -> io::Result<Vec<u8>> {
    let mut bytes = Vec::new();
    if let Some(mut pipe) = pipe {
        pipe.read_to_end(&mut bytes)?;
    }
    Ok(bytes)
}

/// Waits for the program's end, and brings it about at the time limit.
fn wait(mut child: Child) -> io::Result<End> {
    let start = Instant::now();
    while start.elapsed() < TIME_LIMIT {
        if let Some(status) = child.try_wait()? {
            return Ok(status.code().map_or(End::Signal, End::Status));
        }
        thread::sleep(LOOK_AGAIN);
    }
    child.kill()?;
    child.wait()?;
    Ok(End::TimeLimit)
}
