//! Answers the requests that `bindings/c/answers.c` tells of, by the safe wrapper.

use std::io::{BufRead, Write};
use zorfelith::{Builder, Captures, Chunk, Error, Grammar, Input, Match, MatchKind, Regex, chunk};

type Text<'t> = Input<zorfelith::Chunks<'t>>;

/// The bytes that a word writes in hexadecimal.
fn bytes_of(word: &str) -> Vec<u8> {
    if word == "-" {
        return Vec::new();
    }
    (0..word.len()).step_by(2).map(|i| u8::from_str_radix(&word[i..i + 2], 16).unwrap()).collect()
}

fn settings_of(word: &str) -> Builder {
    let on: Vec<bool> = word.bytes().map(|byte| byte != b'0').collect();
    let mut builder = Regex::builder();
    builder
        .case_insensitive(on[0])
        .multi_line(on[1])
        .dot_matches_new_line(on[2])
        .crlf(on[3])
        .swap_greed(on[4])
        .unicode(!on[5])
        .utf8(!on[6])
        .utf8_empty(!on[7])
        .match_kind(match word.as_bytes()[8] {
            b'0' => MatchKind::LeftmostFirst,
            b'1' => MatchKind::All,
            _ => MatchKind::LeftmostLongest,
        })
        .grammar(if on[9] { Grammar::Full } else { Grammar::Stated });
    builder
}

/// The status of an error, as the header numbers it.
fn status(error: &Error) -> u32 {
    match error {
        Error::TooLong => 3,
        Error::Outside => 4,
        Error::Syntax(_) => 8,
        Error::TooLarge => 9,
        Error::Memory => 10,
        _ => unreachable!("{error}"),
    }
}

fn shown(found: &Match) -> String {
    format!("{}:{}-{}", found.pattern(), found.start(), found.end())
}

/// The matches, as `find_iter` and as `captures_iter` give them, each up to the first error.
fn both(regex: &Regex, input: Text<'_>) -> [(Vec<Match>, Option<Error>); 2] {
    let (mut alone, mut with_groups) = ((Vec::new(), None), (Vec::new(), None));
    for found in regex.find_iter(input) {
        match found {
            Ok(found) => alone.0.push(found),
            Err(error) => alone.1 = Some(error),
        }
    }
    for captures in regex.captures_iter(input) {
        match captures.as_ref().map(Captures::get_match) {
            Ok(found) => with_groups.0.push(found),
            Err(error) => with_groups.1 = Some(error.clone()),
        }
    }
    [alone, with_groups]
}

fn answer(kind: &str, regex: &Regex, input: Text<'_>) -> String {
    match kind {
        "a" => {
            let [alone, with_groups] = both(regex, input);
            if alone != with_groups {
                return "find_iter and captures_iter differ".to_string();
            }
            let mut line = "all".to_string();
            for found in &alone.0 {
                line += &format!(" {}", shown(found));
            }
            if let Some(error) = &alone.1 {
                line += &format!(" status {}", status(error));
            }
            line
        }
        "m" => match regex.is_match(input) {
            Ok(found) => format!("status {}", u32::from(found)),
            Err(error) => format!("status {}", status(&error)),
        },
        "w" => match regex.which_patterns(input) {
            Ok(marks) => {
                let mut line = "which".to_string();
                for number in marks {
                    line += &format!(" {number}");
                }
                line
            }
            Err(error) => format!("status {}", status(&error)),
        },
        "f" => match regex.find(input) {
            Ok(Some(found)) => format!("status 1 {}", shown(&found)),
            Ok(None) => "status 0".to_string(),
            Err(error) => format!("status {}", status(&error)),
        },
        _ => match regex.captures(input) {
            Ok(Some(captures)) => {
                let mut line = format!("status 1 {} of {}", shown(&captures.get_match()), captures.group_len());
                for group in captures.iter() {
                    match group {
                        Some(span) => line += &format!(" {}-{}", span.start, span.end),
                        None => line += " .",
                    }
                }
                line
            }
            Ok(None) => "status 0".to_string(),
            Err(error) => format!("status {}", status(&error)),
        },
    }
}

fn main() {
    let stdin = std::io::stdin();
    let mut out = std::io::stdout().lock();
    for line in stdin.lock().lines() {
        let line = line.unwrap();
        let words: Vec<&str> = line.split_ascii_whitespace().collect();
        let cut: usize = words[2].parse().unwrap();
        let start: usize = words[4].parse().unwrap();
        let end = if words[5] == "end" { usize::MAX } else { words[5].parse().unwrap() };
        let count: usize = words[6].parse().unwrap();
        let patterns: Vec<String> = words[7..7 + count].iter().map(|word| String::from_utf8(bytes_of(word)).unwrap()).collect();
        let patterns: Vec<&str> = patterns.iter().map(String::as_str).collect();
        let bytes = bytes_of(words[7 + count]);
        let text: Vec<Chunk<'_>> = if cut == 0 { vec![chunk(&bytes)] } else { bytes.chunks(cut).map(chunk).collect() };
        let answer = match settings_of(words[1]).build_many(&patterns) {
            Ok(_) if words[0] == "r" => "compiled".to_string(),
            Ok(regex) => answer(words[0], &regex, Input::new(&text).range(start..end)),
            Err(Error::Syntax(fault)) => format!("refused 8 {} {}", fault.pattern(), fault.at()),
            Err(error) => format!("refused {} 0 0", status(&error)),
        };
        writeln!(out, "{answer}").unwrap();
    }
}
