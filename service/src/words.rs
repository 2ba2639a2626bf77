//! The options of the program. `use.txt` explains them.

use std::net::SocketAddr;
use std::path::PathBuf;

use crate::times::moment;

pub const USE: &str = include_str!("../use.txt");

/// Where the flights are.
#[derive(Clone, Debug, PartialEq, Eq)]
pub enum Place {
    Night(PathBuf),
    Demo,
    Rehearsal,
}

/// The kind of clock, as far as it is given.
#[derive(Clone, Copy, Debug, PartialEq, Eq)]
pub enum Pace {
    Utc,
    From { moment: Option<u64>, speed: u64 },
    Hand { moment: Option<u64> },
}

#[derive(Clone, Debug, PartialEq, Eq)]
pub struct Serve {
    pub place: Place,
    pub listen: SocketAddr,
    pub hosts: Vec<String>,
    pub token_file: Option<PathBuf>,
    pub log: Option<PathBuf>,
    pub pace: Pace,
}

#[derive(Clone, Debug, PartialEq, Eq)]
pub enum Task {
    Serve(Serve),
    Check { night: PathBuf, log: Option<PathBuf> },
    Help,
    Version,
}

/// Options as given, each at most once except --host.
#[derive(Default)]
struct Said {
    night: Option<String>,
    flags: Vec<&'static str>,
    values: Vec<(&'static str, String)>,
}

const FLAGS: [&str; 6] = ["--demo", "--night", "--check", "--help", "--version", "--hand"];
const VALUES: [&str; 7] = ["--listen", "--host", "--token-file", "--log", "--clock", "--from", "--speed"];

impl Said {
    fn of(words: impl IntoIterator<Item = String>) -> Result<Said, String> {
        let (mut said, mut words) = (Said::default(), words.into_iter());
        while let Some(word) = words.next() {
            if let Some(flag) = FLAGS.into_iter().find(|f| *f == word) {
                if said.has(flag) {
                    return Err(format!("{flag} is given twice"));
                }
                said.flags.push(flag);
            } else if let Some(name) = VALUES.into_iter().find(|v| *v == word) {
                let value = words.next().ok_or(format!("{name} needs a value"))?;
                if name != "--host" && said.value(name).is_some() {
                    return Err(format!("{name} is given twice"));
                }
                said.values.push((name, value));
            } else if word.starts_with('-') || word.is_empty() {
                return Err(format!("'{word}' is no option"));
            } else if said.night.is_some() {
                return Err(format!("'{word}' is one word too many"));
            } else {
                said.night = Some(word);
            }
        }
        Ok(said)
    }

    fn has(&self, flag: &str) -> bool {
        self.flags.contains(&flag)
    }

    fn value(&self, name: &str) -> Option<&str> {
        self.values.iter().find(|(n, _)| *n == name).map(|(_, value)| value.as_str())
    }

    fn path(&self, name: &str) -> Option<PathBuf> {
        self.value(name).map(PathBuf::from)
    }

    fn place(&self) -> Result<Place, String> {
        match (self.has("--demo"), self.has("--night"), &self.night) {
            (true, false, None) => Ok(Place::Demo),
            (false, true, None) => Ok(Place::Rehearsal),
            (false, false, Some(night)) => Ok(Place::Night(night.into())),
            (false, false, None) => Err("name the folder of the night, or use --demo or --night".into()),
            _ => Err("--demo, --night and a folder exclude each other".into()),
        }
    }

    /// Only sensible combinations: a clock set by hand has no speed, and one by UTC no start.
    fn pace(&self, place: &Place) -> Result<Pace, String> {
        let from = self.value("--from").map(|t| moment(t).ok_or(format!("--from {t}: a time is YYYY-MM-DDTHH:MM:SS, with .mmm if wanted")));
        let moment = from.transpose()?;
        let (speed, hand) = (self.value("--speed"), self.has("--hand"));
        match self.value("--clock") {
            None => {}
            Some("utc") if moment.is_none() && speed.is_none() && !hand => return Ok(Pace::Utc),
            Some("utc") => return Err("--clock utc excludes --from, --speed and --hand".into()),
            Some(other) => return Err(format!("--clock {other}: the only clock of this name is utc")),
        }
        if hand && speed.is_some() {
            return Err("--hand and --speed exclude each other".into());
        }
        if matches!(place, Place::Night(_)) && moment.is_none() {
            return if hand || speed.is_some() { Err("--speed and --hand need --from TIME".into()) } else { Ok(Pace::Utc) };
        }
        if hand {
            return Ok(Pace::Hand { moment });
        }
        let digits = |s: &&str| !s.is_empty() && s.bytes().all(|b| b.is_ascii_digit());
        let number = |s: &str| Some(s).filter(digits)?.parse().ok().filter(|n| (1..=3600).contains(n));
        let speed = speed.map_or(Ok(1), |s| number(s).ok_or(format!("--speed {s}: it is a whole number from 1 to 3600")))?;
        Ok(Pace::From { moment, speed })
    }

    fn serve(&self) -> Result<Serve, String> {
        let place = self.place()?;
        let pace = self.pace(&place)?;
        let listen = self.value("--listen").unwrap_or("127.0.0.1:8410");
        let listen = listen.parse().map_err(|_| format!("--listen {listen}: an address is such as 127.0.0.1:8410"))?;
        let hosts = self.values.iter().filter(|(n, _)| *n == "--host").map(|(_, v)| v.to_ascii_lowercase()).collect();
        Ok(Serve { place, listen, hosts, token_file: self.path("--token-file"), log: self.path("--log"), pace })
    }

    fn check(&self) -> Result<Task, String> {
        let night = self.night.as_ref().ok_or("--check needs the folder of the night")?;
        if self.flags.len() > 1 || self.values.iter().any(|(n, _)| *n != "--log") {
            return Err("--check takes a folder and --log DIR alone".into());
        }
        Ok(Task::Check { night: night.into(), log: self.path("--log") })
    }
}

/// The task that the options name, or what is wrong with them.
pub fn read(words: impl IntoIterator<Item = String>) -> Result<Task, String> {
    let said = Said::of(words)?;
    if said.has("--help") {
        return Ok(Task::Help);
    }
    if said.has("--version") {
        return Ok(Task::Version);
    }
    if said.has("--check") {
        return said.check();
    }
    said.serve().map(Task::Serve)
}

#[cfg(test)]
mod tests {
    use super::*;

    fn of(line: &str) -> Result<Task, String> {
        read(line.split_whitespace().map(str::to_string))
    }

    fn serve(line: &str) -> Serve {
        match of(line) {
            Ok(Task::Serve(serve)) => serve,
            other => panic!("{line}: {other:?}"),
        }
    }

    #[test]
    fn words_that_are_taken() {
        assert_eq!(serve("night").pace, Pace::Utc);
        assert_eq!(serve("night --clock utc").place, Place::Night("night".into()));
        assert_eq!(serve("--demo").pace, Pace::From { moment: None, speed: 1 });
        assert_eq!(serve("--night --speed 60").pace, Pace::From { moment: None, speed: 60 });
        assert_eq!(serve("n --from 1963-01-14T02:10:00 --hand").pace, Pace::Hand { moment: Some(411_358_200_000) });
        assert_eq!(serve("n --host A.example --host b").hosts, ["a.example", "b"]);
        assert_eq!(serve("n --listen 127.0.0.1:0").listen.port(), 0);
        assert_eq!(of("--check n --log d"), Ok(Task::Check { night: "n".into(), log: Some("d".into()) }));
        assert_eq!((of("--help"), of("--version")), (Ok(Task::Help), Ok(Task::Version)));
    }

    #[test]
    fn words_that_are_not() {
        let lines = [
            "", "a b", "--demo a", "--demo --night", "--nights", "a --speed 60", "a --hand", "--demo --speed 0", "--demo --speed 3601",
            "--demo --speed 1.5", "--demo --speed +1", "--demo --speed", "--demo --hand --speed 2", "--demo --from 02:10", "a --clock local",
            "a --clock utc --from 1963-01-14T02:10:00", "a --listen 8410", "a --listen localhost", "--check", "--check a --demo", "--demo --demo",
            "--check a --speed 2", "a --log b --log c",
        ];
        for line in lines {
            assert!(of(line).is_err(), "{line}: {:?}", of(line));
        }
    }
}
