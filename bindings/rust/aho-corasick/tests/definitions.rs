//! The automata and the packed searcher beside the definitions, computed slowly, on random patterns and texts.

use aho_corasick::automaton::{Automaton, OverlappingState};
use aho_corasick::nfa::{contiguous, noncontiguous};
use aho_corasick::{dfa, packed, Anchored, Input, Match, MatchError, MatchKind, StartKind};

/// Numbers that look random (a multiplication and shifts).
struct Random(u64);

impl Random {
    fn below(&mut self, limit: usize) -> usize {
        self.0 = self.0.wrapping_mul(6364136223846793005).wrapping_add(1442695040888963407);
        ((self.0 >> 33) as usize) % limit
    }

    fn word(&mut self, least: usize, most: usize) -> String {
        (0..least + self.below(most - least + 1)).map(|_| ['a', 'b', 'A'][self.below(3)]).collect()
    }
}

/// What is searched for, in what, and by which rules.
struct Case {
    patterns: Vec<String>,
    text: String,
    kind: MatchKind,
    fold: bool,
    prefilter: bool,
}

impl Case {
    fn new(rng: &mut Random, least: usize) -> Case {
        Case {
            patterns: (0..rng.below(6)).map(|_| rng.word(least, 4)).collect(),
            text: rng.word(0, 24),
            kind: [MatchKind::Standard, MatchKind::LeftmostFirst, MatchKind::LeftmostLongest][rng.below(3)],
            fold: rng.below(3) == 0,
            prefilter: rng.below(3) > 0,
        }
    }

    /// All occurrences in a span, by end, start and number.
    fn occurrences(&self, start: usize, end: usize, anchored: bool) -> Vec<Match> {
        let text = self.text.as_bytes();
        let same = |a: &[u8], b: &[u8]| if self.fold { a.eq_ignore_ascii_case(b) } else { a == b };
        let mut found = vec![];
        for (number, pattern) in self.patterns.iter().enumerate() {
            for at in start..=if anchored { start } else { end } {
                let stop = at + pattern.len();
                if stop <= end && same(&text[at..stop], pattern.as_bytes()) {
                    found.push(Match::must(number, at..stop));
                }
            }
        }
        found.sort_by_key(|it| (it.end(), it.start(), it.pattern()));
        found
    }

    fn best(&self, start: usize, end: usize, anchored: bool) -> Option<Match> {
        let found = if start <= end { self.occurrences(start, end, anchored) } else { vec![] };
        found.into_iter().min_by_key(|it| match self.kind {
            MatchKind::LeftmostFirst => (it.start(), it.pattern().as_usize(), 0),
            MatchKind::LeftmostLongest => (it.start(), usize::MAX - it.end(), it.pattern().as_usize()),
            _ => (it.end(), it.start(), it.pattern().as_usize()),
        })
    }

    fn walk(&self, mut start: usize, end: usize, anchored: bool) -> Vec<Match> {
        let (mut matches, mut last) = (vec![], None);
        loop {
            let mut found = self.best(start, end, anchored);
            if matches!(found, Some(it) if it.is_empty() && Some(it.end()) == last) {
                found = self.best(start + 1, end, anchored);
            }
            match found {
                None => return matches,
                Some(it) => {
                    matches.push(it);
                    start = it.end();
                    last = Some(start);
                }
            }
        }
    }

    /// Compares the searches of a span with the definitions.
    fn compare<A: Automaton>(&self, automaton: &A, start: usize, end: usize, anchored: Anchored) {
        let (input, asked) = (Input::new(&self.text).range(start..end).anchored(anchored), anchored.is_anchored());
        let shown = || format!("{:?} {:?} {:?} fold {} {:?}", self.patterns, self.text, self.kind, self.fold, input);
        assert_eq!(self.best(start, end, asked), automaton.try_find(&input).unwrap(), "{}", shown());
        let matches: Vec<_> = automaton.try_find_iter(input.clone()).unwrap().collect();
        assert_eq!(self.walk(start, end, asked), matches, "{}", shown());
        let mut state = OverlappingState::start();
        let listed = automaton.try_find_overlapping(&input, &mut state).is_ok();
        assert_eq!(self.kind == MatchKind::Standard, listed, "{}", shown());
        if listed {
            let expected = if start <= end { self.occurrences(start, end, asked) } else { vec![] };
            assert_eq!(expected.first().copied(), state.get_match(), "{}", shown());
            let all = automaton.try_find_overlapping_iter(input.clone()).map(|it| it.collect());
            assert_eq!(if asked { Err(MatchError::invalid_input_anchored()) } else { Ok(expected) }, all, "{}", shown());
        }
    }
}

fn cases(least: usize, mut check: impl FnMut(&mut Random, &Case)) {
    let count = std::env::var("CASES").map_or(3000, |it| it.parse().unwrap());
    let mut rng = Random(7);
    for _ in 0..count {
        let case = Case::new(&mut rng, least);
        check(&mut rng, &case);
    }
}

#[test]
fn automata() {
    cases(0, |rng, case| {
        let end = rng.below(case.text.len() + 1);
        let start = rng.below(end + 2);
        let mut nfa = noncontiguous::Builder::new();
        nfa.match_kind(case.kind).ascii_case_insensitive(case.fold).prefilter(case.prefilter).dense_depth(rng.below(4));
        let nfa = nfa.build(&case.patterns).unwrap();
        let mut other = contiguous::Builder::new();
        other.match_kind(case.kind).ascii_case_insensitive(case.fold).prefilter(case.prefilter).byte_classes(rng.below(2) > 0);
        let mut dfa = dfa::Builder::new();
        dfa.match_kind(case.kind).ascii_case_insensitive(case.fold).prefilter(case.prefilter).start_kind(StartKind::Both);
        for anchored in [Anchored::No, Anchored::Yes] {
            case.compare(&nfa, start, end, anchored);
            case.compare(&other.build(&case.patterns).unwrap(), start, end, anchored);
            case.compare(&dfa.build(&case.patterns).unwrap(), start, end, anchored);
            case.compare(&contiguous::Builder::new().build_from_noncontiguous(&nfa).unwrap(), start, end, anchored);
            let one = if anchored.is_anchored() { StartKind::Anchored } else { StartKind::Unanchored };
            let dfa = dfa::Builder::new().start_kind(one).build_from_noncontiguous(&nfa).unwrap();
            case.compare(&&dfa, start, end, anchored);
        }
    });
}

#[test]
fn packed_searchers() {
    cases(1, |rng, case| {
        let end = rng.below(case.text.len() + 1);
        let start = rng.below(end + 2);
        let kind = match case.kind {
            MatchKind::LeftmostLongest => packed::MatchKind::LeftmostLongest,
            MatchKind::LeftmostFirst => packed::MatchKind::LeftmostFirst,
            _ => return,
        };
        let case = &Case { fold: false, patterns: case.patterns.clone(), text: case.text.clone(), ..*case };
        let searcher = packed::Config::new().match_kind(kind).builder().extend(&case.patterns).build();
        assert_eq!(!case.patterns.is_empty(), searcher.is_some());
        if let Some(searcher) = searcher {
            let whole = case.walk(0, case.text.len(), false);
            assert_eq!(whole, searcher.find_iter(&case.text).collect::<Vec<_>>(), "{:?} {:?}", case.patterns, case.text);
            assert_eq!(whole.first().copied(), searcher.find(&case.text));
            assert_eq!(case.best(start, end, false), searcher.find_in(&case.text, (start..end).into()));
        }
    });
}
