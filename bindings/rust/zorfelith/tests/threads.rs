//! A regex in threads. `scripts/bindings` runs this under helgrind, for which it is a plain program.

use std::panic::{RefUnwindSafe, UnwindSafe};
use std::thread;
use zorfelith::{Captures, CapturesMatches, Chunk, Error, FindMatches, Input, LiveMatches, Match, Regex, Split, Stepper, StreamSearcher, SyntaxError, chunk};

const fn is_send<T: Send>() {}
const fn is_sync<T: Sync>() {}
const fn is_clone<T: Clone>() {}
const fn is_unwind_safe<T: UnwindSafe + RefUnwindSafe>() {}

const _: () = {
    is_send::<Regex>();
    is_sync::<Regex>();
    is_clone::<Regex>();
    is_unwind_safe::<Regex>();
    is_send::<Chunk<'_>>();
    is_sync::<Chunk<'_>>();
    is_send::<Input<&[u8]>>();
    is_sync::<Input<&[u8]>>();
    is_send::<Match>();
    is_sync::<Captures>();
    is_send::<Captures>();
    is_send::<Error>();
    is_sync::<Error>();
    is_sync::<SyntaxError>();
    is_send::<FindMatches<'_, '_, &[u8]>>();
    is_send::<CapturesMatches<'_, '_, &[u8]>>();
    is_send::<Split<'_, '_, &[u8]>>();
    is_send::<LiveMatches>();
    is_send::<StreamSearcher>();
    is_send::<Stepper>();
};

const TEXT: [Chunk<'static>; 3] = [chunk(b"xxa"), chunk(b"ab ab"), chunk(b"bx")];
const ROUNDS: usize = 100;

/// Searches by all calls, again and again, and returns what they found.
fn search(regex: &Regex) -> usize {
    let mut sum = 0;
    for _ in 0..ROUNDS {
        sum += regex.find(&TEXT).unwrap().unwrap().start();
        sum += usize::from(regex.is_match(&TEXT).unwrap());
        // The iterator has one handle, and the searches within it another.
        for found in regex.find_iter(&TEXT) {
            let found = found.unwrap();
            sum += found.end();
            let captures = regex.captures(Input::new(&TEXT).range(found.range())).unwrap().unwrap();
            sum += captures.get_group(1).unwrap().len();
        }
        sum += regex.replace_all(&TEXT, |captures| if captures.pattern() == 0 && regex.is_match("ab").unwrap() { "-" } else { "" }).unwrap().len();
        let list = regex.live(&TEXT).unwrap();
        sum += list.len().unwrap();
    }
    sum
}

/// What one round finds: 2 and 1, the ends 5 and 9 with groups of 1 and 1, a text of 7 bytes, and a list of 2.
const FOUND: usize = ROUNDS * (2 + 1 + (5 + 1) + (9 + 2) + 6 + 2);

fn one_regex_in_threads() {
    let regex = Regex::new("a+(b+)").unwrap();
    let sums = thread::scope(|scope| {
        let threads: Vec<_> = (0..4).map(|_| scope.spawn(|| search(&regex))).collect();
        threads.into_iter().map(|thread| thread.join().unwrap()).collect::<Vec<_>>()
    });
    assert_eq!(sums, [FOUND; 4]);
    assert_eq!(search(&regex), FOUND);
}

fn a_clone_for_each_thread() {
    let regex = Regex::new("a+(b+)").unwrap();
    let threads: Vec<_> = (0..3)
        .map(|_| {
            let clone = regex.clone();
            thread::spawn(move || search(&clone))
        })
        .collect();
    drop(regex);
    for thread in threads {
        assert_eq!(thread.join().unwrap(), FOUND);
    }
}

/// A regex goes from thread to thread, and so does a search that is under way.
fn moved_between_threads() {
    let mut regex = Regex::new("a+(b+)").unwrap();
    for _ in 0..3 {
        regex = thread::spawn(move || {
            assert_eq!(search(&regex), FOUND);
            regex
        })
        .join()
        .unwrap();
    }
    let mut matches = regex.find_iter(&TEXT);
    assert!(matches.next().is_some());
    let rest = thread::scope(|scope| scope.spawn(move || matches.map(|found| found.unwrap().end()).collect::<Vec<_>>()).join().unwrap());
    assert_eq!(rest, [9]);
    assert_eq!(search(&regex), FOUND);
}

/// An iterator that is never dropped keeps its handle, and others are made.
fn forgotten() {
    let regex = Regex::new("a+(b+)").unwrap();
    std::mem::forget(regex.find_iter(&TEXT));
    assert_eq!(search(&regex), FOUND);
}

fn main() {
    one_regex_in_threads();
    a_clone_for_each_thread();
    moved_between_threads();
    forgotten();
    println!("threads: all agree");
}
