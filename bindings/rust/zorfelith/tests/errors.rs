//! Errors, and what is told of patterns.

use zorfelith::{Anchored, Error, Input, MatchKind, Regex};

fn shown(patterns: &[&str]) -> String {
    Regex::new_many(patterns).unwrap_err().to_string()
}

/// Carets stand below the part at fault, also behind a tab and a character of two bytes, and below the line alone in which the fault stands.
#[test]
fn faults_are_shown() {
    assert_eq!(shown(&["é[z-a]b"]), "range out of order:\n    é[z-a]b\n      ^^^");
    assert_eq!(shown(&["a\n\t(b\nc"]), "unclosed group in line 2:\n    \t(b\n    \t^");
    assert_eq!(shown(&["a", "b(", "("]), "pattern 1: unclosed group:\n    b(\n     ^");
    let Err(Error::Syntax(fault)) = Regex::new("to(tal") else { panic!("it is read") };
    assert_eq!((fault.pattern(), fault.text(), fault.range(), fault.words()), (0, "to(tal", 2..3, "unclosed group"));
    assert!(fault.at() <= fault.text().len());
    // What is at fault may be the text's end.
    for pattern in ["a{2", "[a", r"\", "(?", "a|*", "é(", ""] {
        if let Err(error) = Regex::new(pattern) {
            let shown = error.to_string();
            assert_eq!(shown.lines().count(), 3, "{shown}");
            assert!(shown.ends_with('^'), "{shown}");
        }
    }
}

#[test]
fn other_errors() {
    assert_eq!(Regex::builder().size_limit(1).build("abc").unwrap_err(), Error::TooLarge);
    let regex = Regex::new("(a)(?P<second>b)?").unwrap();
    assert_eq!(regex.replace_by("ab", "1$"), Err(Error::Template { at: 1 }));
    assert_eq!(Regex::builder().match_kind(MatchKind::All).build("a").unwrap().replace_by("a", ""), Err(Error::NoGroups));
    let anchored = || Input::new("ab").anchored(Anchored::Yes);
    assert_eq!(regex.which_patterns(anchored()), Err(Error::Unsupported));
    assert_eq!(regex.find_partial(anchored()), Err(Error::Unsupported));
    assert_eq!(regex.find_partial(Input::new("ab").slice(1..)), Err(Error::Unsupported));
    assert_eq!(regex.live(anchored()).err(), Some(Error::Unsupported));
    assert_eq!(regex.find(Input::new("ab").range(3..)), Err(Error::Outside));
    assert_eq!(regex.find(Input::new("ab").range(3..2)), Err(Error::Outside));
    assert_eq!(regex.find(Input::new("ab").slice(3..)), Err(Error::Outside));
    assert_eq!(regex.find(Input::new("ab").slice(2..)), Ok(None));
    // Of an iterator it is the last item.
    let mut matches = regex.find_iter(Input::new("ab").range(3..));
    assert_eq!(matches.next(), Some(Err(Error::Outside)));
    assert_eq!(matches.next(), None);
    assert_eq!(regex.split(Input::new("ab").range(3..)).collect::<Vec<_>>(), [Err(Error::Outside)]);
}

#[test]
fn errors_of_streams_and_slices() {
    let regex = Regex::new("a+").unwrap();
    let mut stream = regex.stream().unwrap();
    stream.set_limit(2);
    stream.feed("aa").unwrap();
    assert_eq!(stream.feed("a"), Err(Error::Limit));
    assert_eq!((stream.next_match(), stream.kept_range()), (None, 0..2));
    stream.finish();
    assert_eq!(stream.feed(""), Err(Error::Finished));
    assert_eq!(stream.next_match().map(|found| found.range()), Some(0..2));
    assert_eq!(stream.next_match(), None);
    let mut search = regex.steps(0).unwrap();
    assert_eq!(search.resume(Input::new("ab").slice(1..), 1), Err(Error::Unsupported));
    assert_eq!(search.resume(Input::new("ab").anchored(Anchored::Yes), 1), Err(Error::Unsupported));
}

#[test]
fn groups() {
    let regex = Regex::new_many(&["(a)(?P<second>b)?", "c"]).unwrap();
    let info = regex.group_info();
    assert_eq!((regex.pattern_len(), info.group_len(0), info.group_len(1), info.group_len(2)), (2, 3, 1, 0));
    assert_eq!((info.to_name(0, 2), info.to_name(0, 1), info.to_name(0, 9)), (Some("second"), None, None));
    assert_eq!((info.to_index(0, "second"), info.to_index(1, "second")), (Some(2), None));
    assert_eq!(info.pattern_names(0).collect::<Vec<_>>(), [None, None, Some("second")]);
    let captures = regex.captures("xa").unwrap().unwrap();
    assert_eq!((captures.pattern(), captures.group_len(), captures.get_match().range()), (0, 3, 1..2));
    assert_eq!((captures.get_group_by_name("second"), captures.get_group_by_name("first")), (None, None));
    assert_eq!(regex.which_patterns("c").unwrap(), [1]);
    assert!(regex.memory_usage() > 0 && regex.cache_memory_usage() > 0);
    assert_eq!(zorfelith::version(), 1000);
}
