//! The calls of version 0.7 of the public crate that later ones lack.
use crate::Pattern;
use aho_corasick::{AhoCorasick, AhoCorasickBuilder, Match, MatchKind};
use std::io::{Read, Result, Write};

pub fn build(patterns: &[Pattern], engine: &str, kind: MatchKind) -> AhoCorasick {
    let mut builder = AhoCorasickBuilder::new();
    builder.match_kind(kind);
    match engine {
        "auto" => builder.auto_configure(patterns),
        "dfa" => builder.dfa(true),
        "nfa" => builder.dfa(false),
        _ => panic!("no engine: {engine}"),
    };
    builder.build(patterns)
}

pub fn replace_stream(ac: &AhoCorasick, from: impl Read, to: impl Write, replacements: &[Pattern]) -> Result<()> {
    ac.stream_replace_all(from, to, replacements)
}

pub fn number(found: &Match) -> usize {
    found.pattern()
}
