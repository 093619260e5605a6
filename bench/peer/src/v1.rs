//! The calls of version 1 of the public crate that earlier ones lack.
use crate::Pattern;
use aho_corasick::{AhoCorasick, AhoCorasickKind, Match, MatchKind};
use std::io::{Read, Result, Write};

pub fn build(patterns: &[Pattern], engine: &str, kind: MatchKind) -> AhoCorasick {
    let engine = match engine {
        "auto" => None,
        "dfa" => Some(AhoCorasickKind::DFA),
        "nfa" => Some(AhoCorasickKind::ContiguousNFA),
        _ => panic!("no engine: {engine}"),
    };
    AhoCorasick::builder().match_kind(kind).kind(engine).build(patterns).unwrap()
}

pub fn replace_stream(ac: &AhoCorasick, from: impl Read, to: impl Write, replacements: &[Pattern]) -> Result<()> {
    ac.try_stream_replace_all(from, to, replacements)
}

pub fn number(found: &Match) -> usize {
    found.pattern().as_usize()
}
