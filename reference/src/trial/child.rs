//! Starts a program with an input and takes its output.

use std::io::{Read, Write};
use std::path::Path;
use std::process::{Child, Command, Stdio};
use std::sync::mpsc::channel;
use std::thread::{scope, sleep};
use std::time::{Duration, Instant};

#[derive(Clone, Debug)]
pub struct Said {
    pub output: Vec<u8>,
    /// How the program ended, in words.
    pub ended: String,
}

/// Waits for the end until a time, then ends the child.
pub fn wait(child: &mut Child, until: Instant) -> String {
    loop {
        match child.try_wait() {
            Ok(Some(status)) => return status.to_string(),
            Err(error) => return error.to_string(),
            Ok(None) if Instant::now() >= until => {
                let _ = child.kill();
                let _ = child.wait();
                return "stopped at the time limit".to_string();
            }
            Ok(None) => sleep(Duration::from_micros(200)),
        }
    }
}

/// The output is read up to `most` bytes, and no longer than the limit.
pub fn talk(
    command: &[String], book: Option<&Path>, input: &[u8], most: u64, limit: Duration,
) -> Result<Said, String> {
    let (program, words) = command.split_first().ok_or("no program given")?;
    let mut child = Command::new(program)
        .args(words)
        .args(book)
        .stdin(Stdio::piped())
        .stdout(Stdio::piped())
        .spawn()
        .map_err(|error| format!("{program}: {error}"))?;
    let until = Instant::now() + limit;
    let stdin = child.stdin.take();
    let stdout = child.stdout.take();
    Ok(scope(|s| {
        // A program that ends early breaks the pipe: its output shows that.
        s.spawn(move || stdin.map(|mut pipe| pipe.write_all(input)));
        let (send, receive) = channel();
        s.spawn(move || {
            let mut output = Vec::new();
            if let Some(pipe) = stdout {
                let _ = pipe.take(most).read_to_end(&mut output);
            }
            let _ = send.send(output);
        });
        let early = receive.recv_timeout(limit);
        let ended = wait(&mut child, until);
        let output = early.or_else(|_| receive.recv()).unwrap_or_default();
        Said { output, ended }
    }))
}

/// Standard output and standard error of a program started with one more word and an input.
pub fn talk_both(command: &[String], word: Option<&str>, input: &[u8]) -> Result<(Vec<u8>, Vec<u8>), String> {
    talk_with(command, &word.iter().map(Path::new).collect::<Vec<_>>(), input)
}

/// The same with any number of words.
pub fn talk_with(command: &[String], behind: &[&Path], input: &[u8]) -> Result<(Vec<u8>, Vec<u8>), String> {
    let (program, words) = command.split_first().ok_or("no program given")?;
    let told = |error| format!("{program}: {error}");
    let mut child = Command::new(program)
        .args(words)
        .args(behind)
        .stdin(Stdio::piped())
        .stdout(Stdio::piped())
        .stderr(Stdio::piped())
        .spawn()
        .map_err(told)?;
    let (mut stdin, mut stderr) = (child.stdin.take().ok_or("no input")?, child.stderr.take().ok_or("no errors")?);
    let input = input.to_vec();
    let writer = std::thread::spawn(move || {
        let _ = stdin.write_all(&input);
    });
    let reader = std::thread::spawn(move || {
        let mut text = Vec::new();
        let _ = stderr.read_to_end(&mut text);
        text
    });
    let output = child.wait_with_output().map_err(told)?.stdout;
    writer.join().map_err(|_| "the input was not written")?;
    Ok((output, reader.join().map_err(|_| "the report was not read")?))
}

/// An output as lines with their line feeds, at most that many. The rest after the last of them belongs to it.
pub fn by_line(output: &[u8], most: usize) -> Vec<Vec<u8>> {
    let lines: Vec<&[u8]> = output.split_inclusive(|&b| b == b'\n').collect();
    let last = most.saturating_sub(1).min(lines.len());
    let mut list: Vec<Vec<u8>> = lines[..last].iter().map(|line| line.to_vec()).collect();
    if lines.len() > last {
        list.push(lines[last..].concat());
    }
    list
}
