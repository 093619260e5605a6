//! The names, as a user of the public crate has them: what is shared, what is refused, and what a query says.

use std::panic::{catch_unwind, RefUnwindSafe, UnwindSafe};

use aho_corasick::automaton::{Automaton, FindIter, FindOverlappingIter, OverlappingState, StreamFindIter};
use aho_corasick::nfa::{contiguous, noncontiguous};
use aho_corasick::packed::{self, Searcher};
use aho_corasick::{dfa, AhoCorasick, Anchored, BuildError, Input, MatchErrorKind, MatchKind, PatternID, Span, StartKind};

#[test]
fn crosses_threads() {
    fn holds<T: Send + Sync + UnwindSafe + RefUnwindSafe>() {}
    holds::<AhoCorasick>();
    holds::<dfa::DFA>();
    holds::<dfa::Builder>();
    holds::<contiguous::NFA>();
    holds::<contiguous::Builder>();
    holds::<noncontiguous::NFA>();
    holds::<noncontiguous::Builder>();
    holds::<FindIter<'_, '_, dfa::DFA>>();
    holds::<FindOverlappingIter<'_, '_, dfa::DFA>>();
    holds::<StreamFindIter<'_, dfa::DFA, std::fs::File>>();
    holds::<OverlappingState>();
    holds::<packed::Config>();
    holds::<packed::Builder>();
    holds::<packed::Searcher>();
    holds::<packed::FindIter<'_, '_>>();
    holds::<BuildError>();
}

/// An automaton without its type.
fn queries(automaton: &dyn Automaton) -> (usize, usize, usize, Vec<usize>, MatchKind) {
    let lens = (0..automaton.patterns_len()).map(|it| automaton.pattern_len(PatternID::must(it))).collect();
    assert!(automaton.memory_usage() > 0);
    (automaton.patterns_len(), automaton.min_pattern_len(), automaton.max_pattern_len(), lens, automaton.match_kind())
}

#[test]
fn queries_of_each() {
    let words = ["foo", "", "quux", "baz"];
    let expected = (4, 0, 4, vec![3, 0, 4, 3], MatchKind::Standard);
    assert_eq!(expected, queries(&dfa::DFA::new(words).unwrap()));
    assert_eq!(expected, queries(&contiguous::NFA::new(words).unwrap()));
    let nfa = noncontiguous::NFA::new(words).unwrap();
    assert_eq!(expected, queries(&nfa));
    assert!(nfa.memory_usage() >= 10 + noncontiguous::NFA::new([""; 0]).unwrap().memory_usage());
    assert!(catch_unwind(|| nfa.pattern_len(PatternID::must(4))).is_err());
    let none = dfa::DFA::new([""; 0]).unwrap();
    assert_eq!((0, usize::MAX, 0, vec![], MatchKind::Standard), queries(&none));
}

#[test]
fn refused() {
    let anchored = Input::new("ab").anchored(Anchored::Yes);
    let dfa = dfa::DFA::new(["ab"]).unwrap();
    assert_eq!(&MatchErrorKind::InvalidInputAnchored, dfa.try_find(&anchored).unwrap_err().kind());
    let only = dfa::DFA::builder().start_kind(StartKind::Anchored).build(["ab"]).unwrap();
    assert_eq!(&MatchErrorKind::InvalidInputUnanchored, only.try_find(&Input::new("ab")).unwrap_err().kind());
    assert!(only.try_replace_all("ab", &["c"]).is_err());
    let leftmost = contiguous::NFA::builder().match_kind(MatchKind::LeftmostFirst).build(["ab"]).unwrap();
    let got = MatchKind::LeftmostFirst;
    let listed = leftmost.try_find_overlapping_iter(Input::new("ab"));
    assert_eq!(&MatchErrorKind::UnsupportedOverlapping { got }, listed.unwrap_err().kind());
    assert_eq!(&MatchErrorKind::UnsupportedStream { got }, leftmost.try_stream_find_iter(&b"ab"[..]).unwrap_err().kind());
    let empty = noncontiguous::NFA::new([""]).unwrap();
    assert_eq!(&MatchErrorKind::UnsupportedEmpty, empty.try_stream_find_iter(&b"ab"[..]).unwrap_err().kind());
}

#[test]
fn replaces_and_reads_streams() {
    let nfa = noncontiguous::NFA::new(["fox", "brown", "quick"]).unwrap();
    let (text, with) = ("The quick brown fox.", ["sloth", "grey", "slow"]);
    assert_eq!("The slow grey sloth.", nfa.try_replace_all(text, &with).unwrap());
    assert_eq!(b"The slow grey sloth.".to_vec(), nfa.try_replace_all_bytes(text.as_bytes(), &with).unwrap());
    let ranges: Result<Vec<_>, _> = nfa.try_stream_find_iter(text.as_bytes()).unwrap().map(|it| it.map(|it| it.range())).collect();
    assert_eq!(vec![4..9, 10..15, 16..19], ranges.unwrap());
    let mut out = vec![];
    nfa.try_stream_replace_all(text.as_bytes(), &mut out, &with).unwrap();
    assert_eq!(b"The slow grey sloth.".to_vec(), out);
    let mut shorter = String::new();
    nfa.try_replace_all_with(text, &mut shorter, |found, _, dst| {
        dst.push_str(with[found.pattern()]);
        found.start() < 10
    })
    .unwrap();
    assert_eq!("The slow grey fox.", shorter);
}

#[test]
fn packed_limits() {
    let words: Vec<String> = (0..129).map(|it| format!("word {it}.")).collect();
    assert!(Searcher::new(&words).is_none());
    let found = Searcher::new(&words[..128]).unwrap().find("a word 127.").unwrap();
    assert_eq!((PatternID::must(127), 2..11), (found.pattern(), found.range()));
    let mut builder = packed::Builder::new();
    assert_eq!((0, usize::MAX), (builder.len(), builder.minimum_len()));
    builder.add("abc").add("de");
    assert_eq!((2, 2), (builder.len(), builder.minimum_len()));
    assert!(builder.build().is_some());
    assert!(builder.add("").build().is_none());
    assert_eq!(0, builder.add("again").len());
    assert!(builder.build().is_none());
}

#[test]
fn packed_queries() {
    let searcher =
        Searcher::config().match_kind(packed::MatchKind::LeftmostLongest).builder().extend(["ab", "abc"]).build().unwrap();
    assert_eq!(&packed::MatchKind::LeftmostLongest, searcher.match_kind());
    assert_eq!(0, searcher.minimum_len());
    assert!(searcher.memory_usage() > 0);
    assert_eq!(Some(3..6), searcher.find_in("abcabc", Span { start: 1, end: 6 }).map(|it| it.range()));
    assert_eq!(Some(3..5), searcher.find_in("abcabc", Span { start: 1, end: 5 }).map(|it| it.range()));
    assert_eq!(None, searcher.find_in("abcabc", Span { start: 1, end: 4 }));
    assert!(catch_unwind(|| searcher.find_in("abc", Span { start: 0, end: 4 })).is_err());
    let clone = searcher.clone();
    drop(searcher);
    assert_eq!(Some(0..2), clone.find("abx").map(|it| it.range()));
}
