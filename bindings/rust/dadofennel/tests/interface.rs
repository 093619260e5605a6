//! The types and their promises: what panics, what is an error and what it says, and what crosses threads.

use std::panic::{catch_unwind, AssertUnwindSafe, RefUnwindSafe, UnwindSafe};

use dadofennel::automaton::OverlappingState;
use dadofennel::{
    AhoCorasick, AhoCorasickBuilder, AhoCorasickKind, Anchored, BuildError, BuildErrorKind, FindIter, FindOverlappingIter, Input,
    Match, MatchError, MatchErrorKind, MatchKind, PatternID, PatternIDError, Span, StartKind, StreamFindIter,
};

#[test]
fn crosses_threads() {
    fn holds<T: Send + Sync + UnwindSafe + RefUnwindSafe>() {}
    fn cloned<T: Clone>() {}
    holds::<AhoCorasick>();
    holds::<AhoCorasickBuilder>();
    holds::<FindIter<'_, '_>>();
    holds::<FindOverlappingIter<'_, '_>>();
    holds::<StreamFindIter<'_, std::fs::File>>();
    holds::<OverlappingState>();
    holds::<BuildError>();
    holds::<MatchError>();
    cloned::<AhoCorasick>();
    cloned::<AhoCorasickBuilder>();
    cloned::<Input<'_>>();
    cloned::<OverlappingState>();
}

#[test]
fn sixteen_threads() {
    let ac = AhoCorasick::new(["fox", "quick"]).unwrap();
    let text = format!("{}quick fox", "x".repeat(5_000));
    let threads: Vec<_> = (0..16)
        .map(|_| {
            let (ac, text) = (ac.clone(), text.clone());
            std::thread::spawn(move || (0..100).map(|_| ac.find_iter(&text).count()).sum::<usize>())
        })
        .collect();
    drop(ac);
    assert!(threads.into_iter().all(|it| it.join().unwrap() == 200));
}

type Call<'a> = (&'a str, Box<dyn Fn() -> bool + 'a>);

#[test]
fn panics() {
    let leftmost = AhoCorasick::builder().match_kind(MatchKind::LeftmostFirst).build(["a"]).unwrap();
    let anchored = AhoCorasick::builder().start_kind(StartKind::Anchored).build(["a"]).unwrap();
    let plain = AhoCorasick::new(["a", ""]).unwrap();
    let calls: Vec<Call<'_>> = vec![
        ("find", Box::new(|| anchored.find("a").is_some())),
        ("pattern_len of none", Box::new(|| plain.pattern_len(PatternID::must(2)) > 0)),
        ("is_match", Box::new(|| anchored.is_match("a"))),
        ("find_iter", Box::new(|| plain.find_iter(Input::new("a").anchored(Anchored::Yes)).count() > 0)),
        ("find_overlapping_iter", Box::new(|| leftmost.find_overlapping_iter("a").count() > 0)),
        ("find_overlapping", Box::new(|| matches!(leftmost.find_overlapping("a", &mut OverlappingState::start()), ()))),
        ("replace_all", Box::new(|| anchored.replace_all("a", &[""]).is_empty())),
        ("replace_all of too few", Box::new(|| plain.replace_all("a", &["b"]).is_empty())),
        ("replace_all_bytes of too many", Box::new(|| plain.replace_all_bytes(b"a", &["b", "b", "b"]).is_empty())),
        ("stream of a leftmost kind", Box::new(|| leftmost.stream_find_iter(&b""[..]).count() > 0)),
        ("stream with an empty pattern", Box::new(|| plain.stream_find_iter(&b""[..]).count() > 0)),
        ("stream_replace_all", Box::new(|| plain.stream_replace_all(&b""[..], vec![], &["", ""]).is_ok())),
        ("a span past the end", Box::new(|| Input::new("ab").span(0..3).is_done())),
        ("a span that is reversed", Box::new(|| Input::new("ab").span(Span { start: 2, end: 0 }).is_done())),
        ("a match that is reversed", Box::new(|| Match::must(0, Span { start: 2, end: 1 }).is_empty())),
        ("a number past the greatest", Box::new(|| PatternID::must(PatternID::LIMIT) > PatternID::ZERO)),
    ];
    for (name, call) in calls {
        assert!(catch_unwind(AssertUnwindSafe(call)).is_err(), "{name} doesn't panic");
    }
    let done = Input::new("ab").span(Span { start: 3, end: 2 });
    assert!(done.is_done());
    assert_eq!((None, 0), (plain.find(done.clone()), plain.find_iter(done).count()));
}

#[test]
fn errors() {
    let leftmost = AhoCorasick::builder().match_kind(MatchKind::LeftmostLongest).build(["a"]).unwrap();
    let anchored = AhoCorasick::builder().start_kind(StartKind::Anchored).build(["a"]).unwrap();
    let plain = AhoCorasick::new(["a", ""]).unwrap();
    let got = MatchKind::LeftmostLongest;
    let anchored_input = Input::new("a").anchored(Anchored::Yes);
    let rows: [(MatchError, MatchErrorKind, &str); 6] = [
        (anchored.try_find("a").unwrap_err(), MatchErrorKind::InvalidInputUnanchored, "unanchored"),
        (plain.try_find(anchored_input).unwrap_err(), MatchErrorKind::InvalidInputAnchored, "anchored"),
        (leftmost.try_find_overlapping_iter("a").unwrap_err(), MatchErrorKind::UnsupportedOverlapping { got }, "LeftmostLongest"),
        (leftmost.try_stream_find_iter(&b""[..]).unwrap_err(), MatchErrorKind::UnsupportedStream { got }, "LeftmostLongest"),
        (plain.try_stream_find_iter(&b""[..]).unwrap_err(), MatchErrorKind::UnsupportedEmpty, "empty"),
        (anchored.try_replace_all("a", &["b"]).unwrap_err(), MatchErrorKind::InvalidInputUnanchored, "unanchored"),
    ];
    for (error, kind, word) in rows {
        assert_eq!(&kind, error.kind());
        assert!(error.to_string().contains(word), "{error}");
        assert_eq!(MatchError::new(kind), error);
    }
    let told = plain.try_stream_replace_all(&b""[..], vec![], &["", ""]).unwrap_err();
    assert!(told.get_ref().unwrap().is::<MatchError>());
    let refused = AhoCorasick::builder().pairs(&[(1, 2), (2, 3)]).build(["a"]).unwrap_err();
    assert!(refused.to_string().contains("twice") && refused.to_string().ends_with(": 2"));
    assert_eq!(&BuildErrorKind::BadPairs { byte: 2 }, refused.kind());
    assert!(AhoCorasick::builder().pairs(&[(1, 2)]).ascii_case_insensitive(true).build(["a"]).is_err());
    let refused: PatternIDError = PatternID::new(PatternID::LIMIT).unwrap_err();
    assert_eq!(2147483647, refused.attempted());
    assert_eq!("number 2147483647 is past 2147483646", refused.to_string());
}

#[test]
fn settings() {
    let ac = AhoCorasick::builder().pairs(&[(b'0', b'1')]).build(["10"]).unwrap();
    assert_eq!(vec![1..3, 3..5], ac.find_iter("2001120").map(|it| it.range()).collect::<Vec<_>>());
    let mut builder = AhoCorasickBuilder::default();
    builder
        .match_kind(MatchKind::LeftmostFirst)
        .start_kind(StartKind::Both)
        .dense_depth(usize::MAX)
        .byte_classes(false)
        .row_memory(0);
    for kind in [AhoCorasickKind::NoncontiguousNFA, AhoCorasickKind::ContiguousNFA, AhoCorasickKind::DFA] {
        let ac = builder.clone().kind(Some(kind)).build(vec![b"abc".to_vec(), b"b".to_vec()]).unwrap();
        assert_eq!((kind, MatchKind::LeftmostFirst, StartKind::Both), (ac.kind(), ac.match_kind(), ac.start_kind()));
        assert_eq!((2, 1, 3), (ac.patterns_len(), ac.min_pattern_len(), ac.max_pattern_len()));
        assert_eq!((3, 1), (ac.pattern_len(PatternID::must(0)), ac.pattern_len(PatternID::must(1))));
        assert_eq!(Some(Match::must(0, 1..4)), ac.find("xabc"));
        assert!(ac.memory_usage() > 0);
        assert!(format!("{ac:?}").contains("patterns_len: 2"));
    }
    let mut anchored = AhoCorasick::builder();
    anchored.start_kind(StartKind::Anchored);
    let kinds = [100, 101].map(|count| anchored.build(vec!["a"; count]).unwrap().kind());
    assert_eq!([AhoCorasickKind::DFA, AhoCorasickKind::ContiguousNFA], kinds);
    let none = AhoCorasick::new(None::<&str>).unwrap();
    assert_eq!((0, usize::MAX, 0), (none.patterns_len(), none.min_pattern_len(), none.max_pattern_len()));
    assert_eq!((None, 0), (none.find("a"), none.stream_find_iter(&b"abc"[..]).count()));
    assert_eq!("abc", none.replace_all("abc", &[] as &[&str]));
}

#[test]
fn values() {
    let input = Input::new(b"hello").range(1..=3).anchored(Anchored::Yes).earliest(true);
    assert_eq!((1, 4, Span::from(1..4), 1..4), (input.start(), input.end(), input.get_span(), input.get_range()));
    assert!(input.get_earliest() && input.get_anchored().is_anchored() && input.haystack() == b"hello");
    let mut input = Input::from("hello");
    input.set_start(2);
    input.set_end(4);
    assert_eq!(r#"Input { haystack: "hello", span: 2..4, anchored: No, earliest: false }"#, format!("{input:?}"));
    let found = Match::new(PatternID::must(3), 2..5);
    assert_eq!(
        (3, 2, 5, 2..5, 3, false),
        (found.pattern().as_usize(), found.start(), found.end(), found.range(), found.len(), found.is_empty())
    );
    assert_eq!((Match::must(3, 12..15), "llo"), (found.offset(10), &"hello"[found.span()]));
    assert_eq!("Match { pattern: PatternID(3), span: 2..5 }", format!("{found:?}"));
    assert!(found.span() == (2..5) && (2..5) == found.span() && found.span().contains(4) && !found.span().contains(5));
    assert_eq!((&7, 4), (&[5, 6, 7][PatternID::must(2)], found.pattern().one_more()));
    let mut list = vec![1, 2];
    list[PatternID::ZERO] = 5;
    assert_eq!(vec![5, 2], list);
    assert_eq!(PatternID::from(7u8), PatternID::try_from(7u64).unwrap());
    assert!(PatternID::try_from(u32::MAX).is_err() && PatternID::try_from(u64::MAX).is_err() && PatternID::try_from(9u16).is_ok());
    assert_eq!(PatternID::must(9), PatternID::from_ne_bytes(PatternID::must(9).to_ne_bytes()).unwrap());
    assert_eq!(PatternID::must(258), PatternID::from_ne_bytes_unchecked(258u32.to_ne_bytes()));
    assert_eq!(u32::MAX, PatternID::from_ne_bytes_unchecked([0xff; 4]).as_u32());
    assert_eq!((4, 2147483646), (PatternID::SIZE, PatternID::MAX.as_i32()));
    assert_eq!(env!("CARGO_PKG_VERSION"), dadofennel::version());
}

/// The first match is found without reading on: what follows may be large.
#[test]
fn lazy() {
    let text = format!("fox{}fox", "x".repeat(1 << 20));
    let ac = AhoCorasick::new(["fox"]).unwrap();
    let mut matches = ac.find_iter(&text);
    assert_eq!(Some(Match::must(0, 0..3)), matches.next());
    assert_eq!(Some(Match::must(0, (1 << 20) + 3..(1 << 20) + 6)), matches.next());
    assert_eq!((None, None), (matches.next(), matches.next()));
}
