//! Times searches of the standard input, as `bindings/c/speed.c` does by the calls for C.
//!
//! usage: speed PATTERN CHUNK ROUNDS matches|texts|slices
//!
//! CHUNK is the length of a chunk in bytes. `matches`: the text stands in such chunks, and all its matches are found. `texts`: each chunk is a
//! text of its own, in which one match is sought. `slices`: as `matches`, but the text is an array of slices, which the library isn't handed
//! as it lies. Each round writes its count and its time, and a last line the least time.

use std::io::Read;
use std::time::{Duration, Instant};
use zorfelith::{Chunk, Regex, chunk};

/// How many matches an iteration gives.
fn count(matches: impl Iterator<Item = Result<zorfelith::Match, zorfelith::Error>>) -> usize {
    matches.map(Result::unwrap).count()
}

fn main() {
    let arguments: Vec<String> = std::env::args().collect();
    let [_, pattern, len, rounds, what] = &arguments[..] else { panic!("usage: speed PATTERN CHUNK ROUNDS matches|texts|slices") };
    let (len, rounds): (usize, usize) = (len.parse().unwrap(), rounds.parse().unwrap());
    let regex = Regex::new(pattern).unwrap();
    let mut text = Vec::new();
    std::io::stdin().read_to_end(&mut text).unwrap();
    let slices: Vec<&[u8]> = text.chunks(len).collect();
    let chunks: Vec<Chunk<'_>> = text.chunks(len).map(chunk).collect();
    let mut least = Duration::MAX;
    for _ in 0..rounds {
        let start = Instant::now();
        let matches = match what.as_str() {
            "texts" => slices.iter().filter(|slice| regex.find(**slice).unwrap().is_some()).count(),
            "slices" => count(regex.find_iter(&slices)),
            _ => count(regex.find_iter(&chunks)),
        };
        let time = start.elapsed();
        println!("{matches} matches, {} us", time.as_micros());
        least = least.min(time);
    }
    println!("least: {} us", least.as_micros());
}
