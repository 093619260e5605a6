//! Searches beside the definitions, computed slowly, on random patterns and texts.

use std::io::{self, Read};

use dadofennel::automaton::OverlappingState;
use dadofennel::{AhoCorasick, AhoCorasickKind, Anchored, Input, Match, MatchKind, StartKind};

/// Numbers that look random (a multiplication and shifts).
struct Random(u64);

impl Random {
    fn below(&mut self, limit: usize) -> usize {
        self.0 = self.0.wrapping_mul(6364136223846793005).wrapping_add(1442695040888963407);
        ((self.0 >> 33) as usize) % limit
    }

    fn one<T: Copy>(&mut self, of: &[T]) -> T {
        of[self.below(of.len())]
    }

    fn word(&mut self, alphabet: &[&str], most: usize) -> String {
        (0..self.below(most + 1)).map(|_| self.one(alphabet)).collect()
    }
}

/// What an automaton is built of, and what it is asked.
struct Case {
    patterns: Vec<String>,
    text: String,
    kind: MatchKind,
    start_kind: StartKind,
    fold: bool,
    ac: AhoCorasick,
}

impl Case {
    fn new(rng: &mut Random) -> Case {
        let alphabets: [&[&str]; 5] = [&["a", " ", "b"], &["a", "b"], &["a", "A", "b"], &["a", "é", "€"], &["a", "😀"]];
        let alphabet = rng.one(&alphabets);
        let patterns: Vec<String> = (0..rng.below(6)).map(|_| rng.word(alphabet, 4)).collect();
        let kind = rng.one(&[MatchKind::Standard, MatchKind::LeftmostFirst, MatchKind::LeftmostLongest]);
        let start_kind = rng.one(&[StartKind::Unanchored, StartKind::Both, StartKind::Anchored]);
        let fold = rng.below(3) == 0;
        let engine = rng.one(&[
            None,
            Some(AhoCorasickKind::NoncontiguousNFA),
            Some(AhoCorasickKind::ContiguousNFA),
            Some(AhoCorasickKind::DFA),
        ]);
        let mut builder = AhoCorasick::builder();
        builder.match_kind(kind).start_kind(start_kind).ascii_case_insensitive(fold).kind(engine).prefilter(rng.below(3) > 0);
        let ac = builder.build(&patterns).unwrap();
        Case { text: rng.word(alphabet, 24), patterns, kind, start_kind, fold, ac }
    }

    /// All occurrences in a span, by end, start and number.
    fn occurrences(&self, start: usize, end: usize, anchored: bool) -> Vec<Match> {
        let text = self.text.as_bytes();
        let mut found = vec![];
        for (number, pattern) in self.patterns.iter().enumerate() {
            for at in start..=end {
                let stop = at + pattern.len();
                let fits = stop <= end && (!anchored || at == start);
                let same = |a: &[u8], b: &[u8]| if self.fold { a.eq_ignore_ascii_case(b) } else { a == b };
                if fits && same(&text[at..stop], pattern.as_bytes()) {
                    found.push(Match::must(number, at..stop));
                }
            }
        }
        found.sort_by_key(|it| (it.end(), it.start(), it.pattern()));
        found
    }

    fn best(&self, start: usize, end: usize, anchored: bool, kind: MatchKind) -> Option<Match> {
        let found = if start <= end { self.occurrences(start, end, anchored) } else { vec![] };
        preferred(found.into_iter(), kind)
    }

    fn walk(&self, mut start: usize, end: usize, anchored: bool) -> Vec<Match> {
        let (mut matches, mut last) = (vec![], None);
        loop {
            let mut found = self.best(start, end, anchored, self.kind);
            if matches!(found, Some(it) if it.is_empty() && Some(it.end()) == last) {
                found = self.best(start + 1, end, anchored, self.kind);
            }
            match found {
                None => return matches,
                Some(it) => {
                    matches.push(it);
                    start = it.end();
                    last = Some(start);
                }
            }
        }
    }

    fn shown(&self) -> String {
        format!("{:?} {:?} {:?} {:?} fold {}", self.patterns, self.text, self.kind, self.start_kind, self.fold)
    }
}

/// The one that the kind prefers.
fn preferred(found: impl Iterator<Item = Match>, kind: MatchKind) -> Option<Match> {
    found.min_by_key(|it| match kind {
        MatchKind::LeftmostFirst => (it.start(), it.pattern().as_usize(), 0),
        MatchKind::LeftmostLongest => (it.start(), usize::MAX - it.end(), it.pattern().as_usize()),
        _ => (it.end(), it.start(), it.pattern().as_usize()),
    })
}

fn cases(mut check: impl FnMut(&mut Random, &Case)) {
    let count = std::env::var("CASES").map_or(3000, |it| it.parse().unwrap());
    let mut rng = Random(1);
    for _ in 0..count {
        let case = Case::new(&mut rng);
        check(&mut rng, &case);
    }
}

#[test]
fn finds() {
    cases(|rng, case| {
        let end = rng.below(case.text.len() + 1);
        let start = rng.below(end + 2);
        for anchored in [Anchored::No, Anchored::Yes] {
            let input = Input::new(&case.text).range(start..end).anchored(anchored);
            let served = matches!(
                (case.start_kind, anchored),
                (StartKind::Both, _) | (StartKind::Unanchored, Anchored::No) | (StartKind::Anchored, Anchored::Yes)
            );
            assert_eq!(served, case.ac.try_find(input.clone()).is_ok());
            if !served {
                assert!(case.ac.try_find_iter(input).is_err());
                continue;
            }
            let anchored = anchored.is_anchored();
            let best = case.best(start, end, anchored, case.kind);
            assert_eq!(best, case.ac.find(input.clone()), "{}", case.shown());
            assert_eq!(best.is_some(), case.ac.is_match(input.clone()), "{}", case.shown());
            let earliest = case.best(start, end, anchored, MatchKind::Standard);
            assert_eq!(earliest, case.ac.find(input.clone().earliest(true)), "{}", case.shown());
            let walk = if start <= end { case.walk(start, end, anchored) } else { vec![] };
            assert_eq!(walk, case.ac.find_iter(input).collect::<Vec<_>>(), "{}", case.shown());
        }
    });
}

#[test]
fn finds_overlapping() {
    cases(|rng, case| {
        let end = rng.below(case.text.len() + 1);
        let start = rng.below(end + 1);
        let input = Input::new(&case.text).range(start..end);
        let anchored = input.clone().anchored(Anchored::Yes);
        assert!(case.ac.try_find_overlapping_iter(anchored.clone()).is_err());
        let standard = case.kind == MatchKind::Standard;
        if standard && case.start_kind != StartKind::Anchored {
            let all = case.occurrences(start, end, false);
            assert_eq!(all, case.ac.find_overlapping_iter(input.clone()).collect::<Vec<_>>(), "{}", case.shown());
            assert_eq!(all, listed(&case.ac, input), "{}", case.shown());
        } else {
            assert!(case.ac.try_find_overlapping_iter(input.clone()).is_err());
            assert!(case.ac.try_find_overlapping(input, &mut OverlappingState::start()).is_err());
        }
        if standard && case.start_kind != StartKind::Unanchored {
            assert_eq!(case.occurrences(start, end, true), listed(&case.ac, anchored), "{}", case.shown());
        } else {
            assert!(case.ac.try_find_overlapping(anchored, &mut OverlappingState::start()).is_err());
        }
    });
}

/// The occurrences by one call after another.
fn listed(ac: &AhoCorasick, input: Input<'_>) -> Vec<Match> {
    let mut state = OverlappingState::start();
    let mut found = vec![];
    loop {
        ac.find_overlapping(input.clone(), &mut state);
        match state.get_match() {
            Some(it) => found.push(it),
            None => break,
        }
    }
    ac.find_overlapping(input, &mut state);
    assert_eq!(None, state.get_match());
    found
}

/// The text with these matches replaced, each by its number in brackets.
fn replaced(text: &[u8], matches: &[Match]) -> Vec<u8> {
    let (mut out, mut at) = (vec![], 0);
    for it in matches {
        out.extend_from_slice(&text[at..it.start()]);
        out.extend_from_slice(format!("<{}>", it.pattern().as_usize()).as_bytes());
        at = it.end();
    }
    out.extend_from_slice(&text[at..]);
    out
}

#[test]
fn replaces() {
    cases(|_, case| {
        let replacements: Vec<String> = (0..case.patterns.len()).map(|number| format!("<{number}>")).collect();
        if case.start_kind == StartKind::Anchored {
            assert!(case.ac.try_replace_all(&case.text, &replacements).is_err());
            assert!(case.ac.try_replace_all_bytes(case.text.as_bytes(), &replacements).is_err());
            return;
        }
        let matches = case.walk(0, case.text.len(), false);
        let wanted = replaced(case.text.as_bytes(), &matches);
        assert_eq!(wanted, case.ac.replace_all_bytes(case.text.as_bytes(), &replacements), "{}", case.shown());
        let whole: Vec<Match> = matches.iter().copied().filter(|it| case.text.get(it.range()).is_some()).collect();
        let wanted = replaced(case.text.as_bytes(), &whole);
        assert_eq!(wanted, case.ac.replace_all(&case.text, &replacements).into_bytes(), "{}", case.shown());
        let mut some = String::from("so: ");
        let mut left = 2;
        case.ac.replace_all_with(&case.text, &mut some, |found, text, dst| {
            assert_eq!(&case.text[found.range()], text);
            dst.push_str(&replacements[found.pattern()]);
            left -= 1;
            left > 0
        });
        assert_eq!(replaced(case.text.as_bytes(), &whole[..whole.len().min(2)]), some.as_bytes()[4..], "{}", case.shown());
    });
}

/// A reader that gives pieces of certain sizes, and may fail once after some of them.
struct Pieces<'t> {
    text: &'t [u8],
    size: usize,
    fails_after: usize,
}

impl Read for Pieces<'_> {
    fn read(&mut self, into: &mut [u8]) -> io::Result<usize> {
        if self.fails_after == 1 {
            self.fails_after = 0;
            return Err(io::Error::new(io::ErrorKind::Other, "the device"));
        }
        self.fails_after = self.fails_after.saturating_sub(1);
        let count = self.size.min(self.text.len()).min(into.len());
        into[..count].copy_from_slice(&self.text[..count]);
        self.text = &self.text[count..];
        Ok(count)
    }
}

#[test]
fn streams() {
    cases(|rng, case| {
        let size = rng.one(&[1, 2, 7, 100]);
        let reader = |fails_after| Pieces { text: case.text.as_bytes(), size, fails_after };
        let replacements: Vec<String> = (0..case.patterns.len()).map(|number| format!("<{number}>")).collect();
        let streams =
            case.kind == MatchKind::Standard && case.start_kind != StartKind::Anchored && !case.patterns.contains(&String::new());
        assert_eq!(streams, case.ac.try_stream_find_iter(reader(0)).is_ok());
        let mut written = vec![];
        let done = case.ac.try_stream_replace_all(reader(0), &mut written, &replacements);
        assert_eq!(streams, done.is_ok());
        if !streams {
            assert!(written.is_empty());
            return;
        }
        let matches = case.walk(0, case.text.len(), false);
        assert_eq!(matches, case.ac.stream_find_iter(reader(0)).map(Result::unwrap).collect::<Vec<_>>(), "{}", case.shown());
        let wanted = replaced(case.text.as_bytes(), &matches);
        assert_eq!(wanted, written, "{}", case.shown());
        let mut beginning = vec![];
        let failed = case.ac.stream_replace_all(reader(2), &mut beginning, &replacements);
        assert_eq!(!case.text.is_empty(), failed.is_err());
        assert!(wanted.starts_with(&beginning), "{}", case.shown());
        let found: Vec<_> = case.ac.stream_find_iter(reader(2)).filter_map(Result::ok).collect();
        assert_eq!(matches, found, "a search goes on after an error: {}", case.shown());
    });
}

fn is_word_byte(byte: Option<&u8>) -> bool {
    byte.map_or(false, |it| it.is_ascii_alphanumeric() || *it == b'_' || *it >= 0x80)
}

/// Under each kind, beside the occurrences with no word byte beside them.
#[test]
fn words() {
    cases(|rng, case| {
        let text = case.text.as_bytes();
        let can =
            case.kind == MatchKind::Standard && case.start_kind != StartKind::Anchored && !case.patterns.contains(&String::new());
        for kind in [MatchKind::Standard, MatchKind::LeftmostFirst, MatchKind::LeftmostLongest] {
            let mut left = case.occurrences(0, text.len(), false);
            left.retain(|it| !is_word_byte(text[..it.start()].last()) && !is_word_byte(text.get(it.end())));
            let mut wanted = vec![];
            left.retain(|it| !it.is_empty());
            while let Some(best) = preferred(left.iter().copied(), kind) {
                wanted.push(best);
                left.retain(|it| it.start() >= best.end());
            }
            let words = case.ac.try_find_word_iter(kind, text).map(Iterator::collect::<Vec<_>>);
            assert_eq!(if can { Some(&wanted) } else { None }, words.as_ref().ok(), "{:?} {}", kind, case.shown());
            let reader = Pieces { text, size: rng.one(&[1, 2, 7, 100]), fails_after: 0 };
            let read = case.ac.try_stream_find_word_iter(kind, reader).map(|it| it.collect::<Result<Vec<_>, _>>().unwrap());
            assert_eq!(words.ok(), read.ok(), "{:?} {}", kind, case.shown());
        }
    });
}

/// All of them, in a text and read in pieces, and masked, beside the same occurrences.
#[test]
fn all_words() {
    cases(|rng, case| {
        let (text, mask) = (case.text.as_bytes(), rng.one(b"*a\xff"));
        let mut all = case.occurrences(0, text.len(), false);
        all.retain(|it| !is_word_byte(text[..it.start()].last()) && !is_word_byte(text.get(it.end())));
        all.sort_by_key(|it| (it.end(), it.start(), it.pattern()));
        let mut wanted = text.to_vec();
        for word in &all {
            wanted[word.range()].fill(mask);
        }
        let masks = case.kind == MatchKind::Standard && case.start_kind != StartKind::Anchored;
        let mut bytes = text.to_vec();
        assert_eq!(masks, case.ac.try_mask_words(&mut bytes, mask).is_ok());
        assert_eq!(if masks { &wanted } else { text }, &bytes[..], "{}", case.shown());
        let can = masks && !case.patterns.contains(&String::new());
        let size = rng.one(&[1, 2, 7, 100]);
        let reader = |fails_after| Pieces { text, size, fails_after };
        let mut written = vec![];
        assert_eq!(can, case.ac.try_stream_mask_words(reader(0), &mut written, mask).is_ok());
        assert_eq!(if can { &wanted[..] } else { &[] }, &written[..], "{}", case.shown());
        if can {
            let mut beginning = vec![];
            assert_eq!(!text.is_empty(), case.ac.stream_mask_words(reader(2), &mut beginning, mask).is_err());
            assert!(wanted.starts_with(&beginning), "{}", case.shown());
        }
        let words = case.ac.try_find_overlapping_word_iter(text).map(Iterator::collect::<Vec<_>>);
        assert_eq!(if can { Some(all) } else { None }, words.as_ref().ok().cloned(), "{}", case.shown());
        let reader = Pieces { text, size: rng.one(&[1, 2, 7, 100]), fails_after: 0 };
        let read = case.ac.try_stream_find_overlapping_word_iter(reader).map(|it| it.collect::<Result<Vec<_>, _>>().unwrap());
        assert_eq!(words.ok(), read.ok(), "{}", case.shown());
    });
}

/// Rows: within a word, at both ends, beside `_` and beside a character beyond ASCII; a word that begins another one.
#[test]
fn rows_of_words() {
    let of = |patterns: &[&str], kind, text: &str| -> Vec<_> {
        AhoCorasick::new(patterns).unwrap().find_word_iter(kind, text).map(|it| (it.pattern().as_usize(), it.range())).collect()
    };
    for kind in [MatchKind::Standard, MatchKind::LeftmostFirst, MatchKind::LeftmostLongest] {
        assert!(of(&["cat"], kind, "concatenate cat_ _cat ücat catü cat9").is_empty());
        assert_eq!(vec![(0, 0..3), (0, 7..10)], of(&["cat"], kind, "cat, a cat"));
        assert_eq!((0, 0..3), of(&["new", "new york"], kind, "new yorker, new york")[0]);
        assert!(of(&[], kind, "cat").is_empty() && of(&["cat"], kind, "").is_empty());
        let many = "cat ".repeat(3000);
        let wanted: Vec<_> = (0..3000).map(|at| (0, 4 * at..4 * at + 3)).collect();
        assert_eq!(wanted, of(&["cat"], kind, &many));
    }
    let ac = AhoCorasick::new(["new", "new york"]).unwrap();
    for (kind, wanted) in [
        (MatchKind::Standard, "old yorker, old york, ünew"),
        (MatchKind::LeftmostFirst, "old yorker, old york, ünew"),
        (MatchKind::LeftmostLongest, "old yorker, york, ünew"),
    ] {
        let text = "new yorker, new york, ünew";
        assert_eq!(wanted, ac.replace_words(kind, text, &["old", "york"]));
        assert_eq!(Ok(wanted.as_bytes().to_vec()), ac.try_replace_words_bytes(kind, text.as_bytes(), &["old", "york"]));
    }
    let last = |kind| of(&["new", "new york"], kind, "new yorker, new york")[1].clone();
    assert_eq!((0, 12..15), last(MatchKind::Standard));
    assert_eq!((0, 12..15), last(MatchKind::LeftmostFirst));
    assert_eq!((1, 12..20), last(MatchKind::LeftmostLongest));
    let all = AhoCorasick::new(["new york", "york times", "york"]).unwrap();
    let read = all.stream_find_overlapping_word_iter(&b"a new york times"[..]).map(|it| it.unwrap());
    let read: Vec<_> = read.map(|it| (it.pattern().as_usize(), it.range())).collect();
    assert_eq!(vec![(0, 2..10), (2, 6..10), (1, 6..16)], read);
    let leftmost = AhoCorasick::builder().match_kind(MatchKind::LeftmostFirst).build(["cat"]).unwrap();
    assert!(leftmost.try_stream_find_overlapping_word_iter(&b"cat"[..]).is_err());
    assert!(leftmost.try_find_word_iter(MatchKind::LeftmostFirst, "cat").is_err());
    assert!(AhoCorasick::new(["cat", ""]).unwrap().try_find_word_iter(MatchKind::Standard, "cat").is_err());
}

/// In memory and over a stream, beside the occurrences.
#[test]
fn masks() {
    cases(|rng, case| {
        let (text, mask) = (case.text.as_bytes(), rng.one(b"*a\xff"));
        let mut wanted = text.to_vec();
        for found in case.occurrences(0, text.len(), false) {
            wanted[found.range()].fill(mask);
        }
        let can = case.kind == MatchKind::Standard && case.start_kind != StartKind::Anchored;
        let mut bytes = text.to_vec();
        assert_eq!(can, case.ac.try_mask(&mut bytes, mask).is_ok());
        assert_eq!(if can { &wanted } else { text }, &bytes[..], "{}", case.shown());
        let size = rng.one(&[1, 2, 7, 100]);
        let reader = |fails_after| Pieces { text, size, fails_after };
        let streams = can && !case.patterns.contains(&String::new());
        let mut written = vec![];
        assert_eq!(streams, case.ac.try_stream_mask(reader(0), &mut written, mask).is_ok());
        assert_eq!(if streams { &wanted[..] } else { &[] }, &written[..], "{}", case.shown());
        if streams {
            let mut beginning = vec![];
            assert_eq!(!text.is_empty(), case.ac.stream_mask(reader(2), &mut beginning, mask).is_err());
            assert!(wanted.starts_with(&beginning), "{}", case.shown());
        }
    });
}

/// A stream of many buffers, and matches across their ends.
#[test]
fn long_streams() {
    let long = format!("{}se", "x".repeat(70_000));
    for pattern in ["secret", "xxxxsecr", &long] {
        let text = format!("{}secret{}", "x".repeat(71_000), "y".repeat(3_001)).repeat(8);
        let ac = AhoCorasick::new([pattern]).unwrap();
        let starts: Vec<usize> = text.match_indices(pattern).map(|(at, _)| at).collect();
        assert!(starts.len() >= 7);
        for size in [1_000, 65_536, 100_000] {
            let reader = || Pieces { text: text.as_bytes(), size, fails_after: 0 };
            let found: Vec<usize> = ac.stream_find_iter(reader()).map(|it| it.unwrap().start()).collect();
            assert_eq!(starts, found);
            let mut written = vec![];
            ac.stream_replace_all(reader(), &mut written, &[""]).unwrap();
            assert!(text.replace(pattern, "").as_bytes() == written);
            let mut masked = vec![];
            ac.stream_mask(reader(), &mut masked, b'*').unwrap();
            assert!(text.replace(pattern, &"*".repeat(pattern.len())).as_bytes() == masked);
            // each pattern stands within a word, and as one where spaces are around it
            masked.clear();
            ac.stream_mask_words(reader(), &mut masked, b'*').unwrap();
            assert!(text.as_bytes() == masked);
            let apart = text.replace(pattern, &format!(" {} ", pattern));
            masked.clear();
            ac.stream_mask_words(Pieces { text: apart.as_bytes(), size, fails_after: 0 }, &mut masked, b'*').unwrap();
            assert!(apart.replace(pattern, &"*".repeat(pattern.len())).as_bytes() == masked);
        }
    }
}

/// Lists and walks of many batches.
#[test]
fn long_texts() {
    let text = "ab abc abcd ".repeat(10_000);
    let ac = AhoCorasick::new(["abcd", "bc", "ab", "a"]).unwrap();
    let per_piece = [(3, 0, 1), (3, 3, 4), (3, 7, 8)];
    let walked: Vec<_> = ac.find_iter(&text).map(|it| (it.pattern().as_usize(), it.start(), it.end())).collect();
    // the standard kind takes `a` and then, of what is left, `bc`
    let mut wanted = vec![];
    for piece in 0..10_000 {
        for (pattern, start, end) in per_piece {
            wanted.push((pattern, piece * 12 + start, piece * 12 + end));
            if start > 0 {
                wanted.push((1, piece * 12 + end, piece * 12 + end + 2));
            }
        }
    }
    assert_eq!(wanted, walked);
    assert_eq!(10_000 * 9, ac.find_overlapping_iter(&text).count());
}
