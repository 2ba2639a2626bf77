//! Starts a program on random input and compares both its outputs with the reference's, for N seconds and at least N starts. Half
//! of the inputs are changed at random. An input that differs is kept in a folder. With --replay yes the kept inputs are tried
//! instead. With --spoil N the Nth expected output is spoiled, and no later one is compared.
//!
//! trial fuzz --name NAME --program "WORDS" --found FOLDER [--seed N] [--seconds N] [--least N] [--replay yes] [--spoil N]

use std::path::{Path, PathBuf};
use std::time::{Duration, Instant};

use reference::trial::chance::Chance;
use reference::trial::child::talk_with;
use reference::trial::drive::Options;
use reference::trial::programs::{batch, ends_soon, expected, other, Input, PROGRAMS};

fn told<T>(file: &Path, result: std::io::Result<T>) -> Result<T, String> {
    result.map_err(|error| format!("{}: {error}", file.display()))
}

/// The input as files of a folder.
fn write(folder: &Path, input: &Input) -> Result<Vec<PathBuf>, String> {
    told(folder, std::fs::create_dir_all(folder))?;
    let mut names = Vec::new();
    for (i, file) in input.files.iter().enumerate() {
        names.push(folder.join(i.to_string()));
        told(folder, std::fs::write(&names[i], file))?;
    }
    Ok(names)
}

/// Keeps the input, so that it can be tried again.
fn keep(found: &Path, name: &str, input: &Input) -> Result<PathBuf, String> {
    let all = [&input.files.concat()[..], &input.stdin].concat();
    let sum = all.iter().fold(0xcbf2_9ce4_8422_2325u64, |h, &b| (h ^ u64::from(b)).wrapping_mul(0x100_0000_01b3));
    let folder = found.join(format!("{name}-{sum:016x}"));
    write(&folder, input)?;
    told(&folder, std::fs::write(folder.join("stdin"), &input.stdin))?;
    if let Some(word) = &input.word {
        told(&folder, std::fs::write(folder.join("word"), word))?;
    }
    Ok(folder)
}

/// The inputs of a program that were kept.
fn kept(found: &Path, name: &str) -> Result<Vec<Input>, String> {
    let mut list = Vec::new();
    for folder in std::fs::read_dir(found).into_iter().flatten().flatten().map(|entry| entry.path()) {
        let of = folder.file_name().unwrap_or_default().to_string_lossy().into_owned();
        if of.rsplit_once('-').is_some_and(|(program, _)| program == name) && folder.join("stdin").exists() {
            let files = (0..2).map_while(|i| std::fs::read(folder.join(i.to_string())).ok()).collect();
            let word = std::fs::read_to_string(folder.join("word")).ok();
            list.push(Input { files, word, stdin: told(&folder, std::fs::read(folder.join("stdin")))? });
        }
    }
    Ok(list)
}

/// Starts the program; whether it writes the expected output.
fn alike(command: &[String], folder: &Path, name: &str, input: &Input, spoiled: bool) -> Result<bool, String> {
    let files = write(folder, input)?;
    let mut words: Vec<&Path> = files.iter().map(PathBuf::as_path).collect();
    words.extend(input.word.as_ref().map(Path::new));
    let (mut output, errors) = expected(name, input);
    if spoiled {
        output.push(b'x');
    }
    Ok(talk_with(command, &words, &input.stdin)? == (output, errors))
}

fn all(options: &Options, name: &str, folder: &Path) -> Result<(u64, u64), String> {
    let (command, found) = (options.words("program"), PathBuf::from(options.text("found")));
    let (least, spoil) = (options.number("least", 1)?, options.number("spoil", 0)?);
    let (limit, begun) = (Duration::from_secs(options.number("seconds", 1)?), Instant::now());
    let (mut c, mut starts, mut differ) = (Chance::new(options.number("seed", 1)?), 0, 0);
    let again = options.text("replay") == "yes";
    loop {
        let list = if again { kept(&found, name)? } else { batch(&mut c, name) };
        for input in list {
            let input = if !again && c.one_in(2) { other(&mut c, name, &input) } else { input };
            if !ends_soon(name, &input) {
                continue;
            }
            starts += 1;
            if !alike(&command, folder, name, &input, starts == spoil)? {
                differ += 1;
                println!("{}", if starts == spoil { "spoiled".to_string() } else { keep(&found, name, &input)?.display().to_string() });
            }
            if starts == spoil || !again && starts >= least && begun.elapsed() >= limit {
                return Ok((starts, differ));
            }
        }
        if again {
            return Ok((starts, differ));
        }
    }
}

pub fn compare(words: impl Iterator<Item = String>) -> Result<bool, String> {
    let options = Options::read(&["name", "program", "found", "seed", "seconds", "least", "replay", "spoil"], words)?;
    let name = options.text("name");
    if !PROGRAMS.contains(&name) {
        return Err(format!("'{name}' is none of {}", PROGRAMS.join(", ")));
    }
    let folder = std::env::temp_dir().join(format!("fuzz-{}", std::process::id()));
    let counts = all(&options, name, &folder);
    let _ = std::fs::remove_dir_all(&folder);
    let (starts, differ) = counts?;
    println!("{starts} compared, {differ} differ");
    Ok(differ == 0)
}
