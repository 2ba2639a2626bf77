//! Counts by kind, answer and case.

use std::collections::BTreeMap;

#[derive(Clone, Debug, Default)]
pub struct Counts {
    /// Calls of each kind, in the order they first came.
    pub kinds: Vec<(String, usize)>,
    pub answers: BTreeMap<(String, String), usize>,
    pub cases: BTreeMap<(String, String, String), usize>,
    pub ends: BTreeMap<(String, String), usize>,
}

/// 1234567 as 1,234,567.
pub fn grouped(n: usize) -> String {
    let digits = n.to_string();
    let mut out = String::new();
    for (i, digit) in digits.chars().enumerate() {
        if i > 0 && (digits.len() - i) % 3 == 0 {
            out.push(',');
        }
        out.push(digit);
    }
    out
}

/// The sort of an answer: the first words of its last line.
pub fn sort(answer: &str) -> String {
    let last = answer.trim_end().lines().last().unwrap_or("");
    let words: Vec<&str> = last.split(' ').collect();
    match words[..] {
        ["REFUSED", number] => format!("refused {number}"),
        ["REFUSED", number, "0", ..] => format!("refused {number} at 0 steps"),
        ["REFUSED", number, ..] => format!("refused {number} on the way"),
        ["ARRIVED", "0", ..] => "arrived at 0 steps".to_string(),
        ["ARRIVED", ..] => "arrived".to_string(),
        ["GOING", "0", ..] => "going at 0 steps".to_string(),
        ["GOING", ..] => "going".to_string(),
        ["ELLIPSE", ..] => "ellipses".to_string(),
        ["HYPERBOLA", ..] => "hyperbolas".to_string(),
        ["UNREADABLE"] => "unreadable".to_string(),
        _ => "values".to_string(),
    }
}

impl Counts {
    pub fn add(&mut self, kind: &str, case: &str, answer: &str) {
        match self.kinds.iter_mut().find(|(k, _)| k == kind) {
            Some((_, n)) => *n += 1,
            None => self.kinds.push((kind.to_string(), 1)),
        }
        let sort = sort(answer);
        *self.answers.entry((kind.to_string(), sort.clone())).or_default() += 1;
        *self.cases.entry((kind.to_string(), case.to_string(), sort)).or_default() += 1;
    }

    pub fn end(&mut self, program: &str, ended: &str) {
        *self.ends.entry((program.to_string(), ended.to_string())).or_default() += 1;
    }

    /// A line for each kind, with its answers.
    pub fn kind_lines(&self) -> Vec<String> {
        let mut lines = Vec::new();
        for (kind, n) in &self.kinds {
            let what = if kind.starts_with("strip") { "strips" } else { "calls" };
            let mut line = format!("{kind}: {} {what}", grouped(*n));
            for ((_, sort), m) in self.answers.iter().filter(|((k, _), _)| k == kind) {
                line.push_str(&format!(", {} {sort}", grouped(*m)));
            }
            lines.push(line);
        }
        lines.sort_unstable();
        lines
    }

    /// A line for each case and answer.
    pub fn case_lines(&self) -> Vec<String> {
        let line = |((kind, case, sort), n): (&(String, String, String), &usize)| {
            format!("  {kind}, {case}: {} {sort}", grouped(*n))
        };
        self.cases.iter().map(line).collect()
    }

    /// How the programs ended.
    pub fn end_lines(&self) -> Vec<String> {
        let line = |((program, ended), n): (&(String, String), &usize)| {
            format!("{program} ended with {ended}: {} times", grouped(*n))
        };
        self.ends.iter().map(line).collect()
    }
}
