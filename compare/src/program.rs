//! Runs the other reader: case file in, answers out.

use crate::case::{next_answer, write_file, Answer, Case};
use std::io::{Read, Write};
use std::process::{Child, Command, ExitStatus, Stdio};
use std::time::{Duration, Instant};

pub struct Program {
    pub name: String,
    pub args: Vec<String>,
}

/// What a run of the program gave.
pub struct Run {
    /// The answers of the first cases, as far as they have the right form.
    pub answers: Vec<Answer>,
    /// Why the run is not as it should be, if it is not.
    pub fault: Option<String>,
}

impl Program {
    /// Runs the program once over all cases, ending it after `limit`.
    pub fn run(&self, cases: &[Case], limit: Duration) -> Run {
        let (text, fault) = self.ask(write_file(cases), limit);
        let mut lines = text.lines();
        let answers: Vec<Answer> =
            std::iter::from_fn(|| next_answer(&mut lines)).take(cases.len()).collect();
        let fault = match fault {
            Some(fault) => Some(fault),
            None if answers.len() < cases.len() => {
                Some("answers are missing or malformed".to_string())
            }
            None => lines.next().map(|_| "there are more answers than cases".to_string()),
        };
        Run { answers, fault }
    }

    /// Runs the program once over a file, ending it after `limit`: what it says, and why the run
    /// is not as it should be, if it is not.
    pub fn ask(&self, file: Vec<u8>, limit: Duration) -> (String, Option<String>) {
        let spawned = Command::new(&self.name)
            .args(&self.args)
            .stdin(Stdio::piped())
            .stdout(Stdio::piped())
            .stderr(Stdio::inherit())
            .spawn();
        let mut child = match spawned {
            Ok(child) => child,
            Err(error) => {
                let fault = format!("{} could not be started: {error}", self.name);
                return (String::new(), Some(fault));
            }
        };
        let (mut input, mut output) = (child.stdin.take(), child.stdout.take());
        // Writing and reading each have a thread, so that no full pipe blocks.
        let (text, status) = std::thread::scope(|scope| {
            scope.spawn(move || input.as_mut().map(|input| input.write_all(&file)));
            let reading = scope.spawn(move || {
                let mut bytes = Vec::new();
                let _ = output.as_mut().map(|output| output.read_to_end(&mut bytes));
                bytes
            });
            let status = wait(&mut child, limit);
            (reading.join().unwrap_or_default(), status)
        });
        let fault = match status {
            None => Some("the program took too long and was ended".to_string()),
            Some(status) if !status.success() => Some(format!("the program ended with {status}")),
            _ => None,
        };
        (String::from_utf8_lossy(&text).into_owned(), fault)
    }
}

fn wait(child: &mut Child, limit: Duration) -> Option<ExitStatus> {
    let start = Instant::now();
    let mut pause = Duration::from_micros(200);
    loop {
        match child.try_wait() {
            Ok(Some(status)) => return Some(status),
            Ok(None) if start.elapsed() < limit => std::thread::sleep(pause),
            _ => {
                let _ = child.kill();
                let _ = child.wait();
                return None;
            }
        }
        pause = (pause * 2).min(Duration::from_millis(20));
    }
}
