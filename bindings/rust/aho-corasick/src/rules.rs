//! The settings that an automaton of every engine has.

use dadofennel::{AhoCorasick, AhoCorasickBuilder, AhoCorasickKind, MatchKind, StartKind};

/// What decides which matches there are, and whether searches skip.
#[derive(Clone, Copy, Debug)]
pub(crate) struct Rules {
    pub(crate) match_kind: MatchKind,
    pub(crate) ascii_case_insensitive: bool,
    pub(crate) prefilter: bool,
}

impl Default for Rules {
    fn default() -> Rules {
        Rules { match_kind: MatchKind::Standard, ascii_case_insensitive: false, prefilter: true }
    }
}

impl Rules {
    /// A builder of an automaton with these settings, by this engine.
    pub(crate) fn builder(&self, engine: AhoCorasickKind, start_kind: StartKind) -> AhoCorasickBuilder {
        let mut builder = AhoCorasick::builder();
        builder
            .kind(Some(engine))
            .start_kind(start_kind)
            .match_kind(self.match_kind)
            .ascii_case_insensitive(self.ascii_case_insensitive)
            .prefilter(self.prefilter);
        builder
    }
}

/// The three settings of a builder whose field `rules` has them.
macro_rules! setters {
    () => {
        /// Which of several overlapping occurrences is the match: the standard kind at first.
        pub fn match_kind(&mut self, kind: MatchKind) -> &mut Builder {
            self.rules.match_kind = kind;
            self
        }

        /// Whether ASCII letters match in either case: no, at first.
        pub fn ascii_case_insensitive(&mut self, yes: bool) -> &mut Builder {
            self.rules.ascii_case_insensitive = yes;
            self
        }

        /// Whether searches skip by a prefilter, where one serves: yes, at first. It changes no result.
        pub fn prefilter(&mut self, yes: bool) -> &mut Builder {
            self.rules.prefilter = yes;
            self
        }
    };
}

pub(crate) use setters;
