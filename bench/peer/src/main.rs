//! The public Rust crate behind command lines of this repository, for comparison.
//!
//! `peer MODE RULES [--kind KIND] [--engine ENGINE]` does what `acsub` does: it replaces or lists in standard input what the rules
//! of a file of hex match. `peer in-memory WORDS FILE PASSES ENGINE KIND` does what `bench_in_memory` does: it times searches of a file
//! that is held. `peer short-texts WORDS FILE LENGTH KIND` does what `library.c` does: it searches the pieces of a file, each by
//! calls of its own. An ENGINE is `auto`, `nfa` or `dfa`. Errors end it by a panic.
use aho_corasick::{AhoCorasick, Match, MatchKind};
use std::io::{self, BufWriter, Read, Write};
use std::time::{Duration, Instant};
use std::{env, fs};

#[cfg_attr(feature = "v0", path = "v0.rs")]
#[cfg_attr(not(feature = "v0"), path = "v1.rs")]
mod version;

type Pattern = Vec<u8>;

struct Rules {
    patterns: Vec<Pattern>,
    replacements: Vec<Pattern>,
}

fn main() {
    let words: Vec<String> = env::args().skip(1).collect();
    match words[0].as_str() {
        "in-memory" => time(&words[1], &words[2], words[3].parse().unwrap(), &words[4], &words[5]),
        "short-texts" => search_pieces(&words[1], &words[2], words[3].parse().unwrap(), &words[4]),
        mode => run(mode, &words[1], option(&words, "--engine", "auto"), option(&words, "--kind", "standard")),
    }
}

fn option<'w>(words: &'w [String], name: &str, default: &'w str) -> &'w str {
    let at = words.iter().position(|word| word == name);
    at.map_or(default, |at| words[at + 1].as_str())
}

fn build(patterns: &[Pattern], engine: &str, kind: &str) -> AhoCorasick {
    let kind = match kind {
        "standard" => MatchKind::Standard,
        "leftmost-first" => MatchKind::LeftmostFirst,
        "leftmost-longest" => MatchKind::LeftmostLongest,
        _ => panic!("no match kind: {kind}"),
    };
    version::build(patterns, engine, kind)
}

fn run(mode: &str, rules: &str, engine: &str, kind: &str) {
    let rules = read_rules(&fs::read_to_string(rules).unwrap());
    let automaton = build(&rules.patterns, engine, kind);
    let mut out = BufWriter::with_capacity(1 << 16, io::stdout().lock());
    // as acsub does, it writes while it reads where that serves
    match (kind, mode) {
        ("standard", "replace") => {
            version::replace_stream(&automaton, io::stdin().lock(), &mut out, &rules.replacements).unwrap()
        }
        ("standard", "list") => {
            for found in automaton.stream_find_iter(io::stdin().lock()) {
                write_match(&mut out, &found.unwrap());
            }
        }
        _ => hold(mode, &rules, &automaton, &mut out),
    }
    out.flush().unwrap();
}

fn hold<W: Write>(mode: &str, rules: &Rules, automaton: &AhoCorasick, out: &mut W) {
    let mut input = Vec::new();
    io::stdin().lock().read_to_end(&mut input).unwrap();
    match mode {
        "replace" => {
            let mut end = 0;
            for found in automaton.find_iter(&input) {
                out.write_all(&input[end..found.start()]).unwrap();
                out.write_all(&rules.replacements[version::number(&found)]).unwrap();
                end = found.end();
            }
            out.write_all(&input[end..]).unwrap();
        }
        "list" => automaton.find_iter(&input).for_each(|found| write_match(out, &found)),
        "overlap" => automaton.find_overlapping_iter(&input).for_each(|found| write_match(out, &found)),
        _ => panic!("no mode: {mode}"),
    }
}

fn write_match<W: Write>(out: &mut W, found: &Match) {
    writeln!(out, "{} {} {}", version::number(found), found.start(), found.end()).unwrap();
}

fn read_rules(text: &str) -> Rules {
    let (patterns, replacements) = text
        .lines()
        .map(|line| line.split_once('\t').unwrap())
        .map(|(pattern, replacement)| (bytes_of(pattern), bytes_of(replacement)))
        .unzip();
    Rules { patterns, replacements }
}

fn bytes_of(hex: &str) -> Pattern {
    (0..hex.len()).step_by(2).map(|at| u8::from_str_radix(&hex[at..at + 2], 16).unwrap()).collect()
}

fn lines_of(file: &str) -> Vec<Pattern> {
    fs::read_to_string(file).unwrap().lines().map(|line| line.as_bytes().to_vec()).collect()
}

fn time(words: &str, file: &str, passes: u32, engine: &str, kind: &str) {
    let text = fs::read(file).unwrap();
    let automaton = build(&lines_of(words), engine, kind);
    let (mut found, mut fastest) = (0, Duration::MAX);
    for _ in 0..passes {
        let start = Instant::now();
        found = automaton.find_iter(&text).count();
        fastest = fastest.min(start.elapsed());
    }
    eprintln!("{} MB/s", text.len() as u128 * 1000 / fastest.as_nanos().max(1));
    println!("{found} matches");
}

/// Searches the pieces of a length. It prints how many there are, and a sum for each of three calls.
fn search_pieces(words: &str, file: &str, length: usize, kind: &str) {
    let patterns = lines_of(words);
    let replacements = vec![b"XX".to_vec(); patterns.len()];
    let text = fs::read(file).unwrap();
    let pieces: Vec<&[u8]> = text.chunks_exact(length).collect();
    let automaton = build(&patterns, "auto", kind);
    let sums = (
        all_is_match(&automaton, &pieces),
        all_find_iter(&automaton, &pieces),
        all_replace(&automaton, &pieces, &replacements),
    );
    println!("{} {} {} {}", pieces.len(), sums.0, sums.1, sums.2);
}

// functions of their own, so that callgrind has a count for each

/// How many pieces have a match.
#[inline(never)]
fn all_is_match(automaton: &AhoCorasick, pieces: &[&[u8]]) -> usize {
    pieces.iter().filter(|piece| automaton.is_match(piece)).count()
}

/// The sum of the places where matches end, each in its piece.
#[inline(never)]
fn all_find_iter(automaton: &AhoCorasick, pieces: &[&[u8]]) -> usize {
    pieces.iter().map(|piece| automaton.find_iter(piece).map(|found| found.end()).sum::<usize>()).sum()
}

/// How long the texts are in which each match is replaced.
#[inline(never)]
fn all_replace(automaton: &AhoCorasick, pieces: &[&[u8]], replacements: &[Pattern]) -> usize {
    pieces.iter().map(|piece| automaton.replace_all_bytes(piece, replacements).len()).sum()
}
