//! Lists the matches of searches that standard input has, one a line: `MODE KIND FOLD TEXT PATTERN..`, where the last are hex
//! after an `x`.
//!
//! MODE is `list` or `overlap`, KIND `standard`, `leftmost-first` or `leftmost-longest`, FOLD `0` or `1`. A line is answered by
//! one: number, start and end of each match, with commas between the matches.

use std::error::Error;
use std::io::{self, BufRead, Write};

use dadofennel::{AhoCorasick, Match, MatchKind};

fn main() -> Result<(), Box<dyn Error>> {
    let mut out = io::BufWriter::new(io::stdout().lock());
    for line in io::stdin().lock().lines() {
        let matches = listed(&line?)?;
        let shown: Vec<String> =
            matches.iter().map(|it| format!("{} {} {}", it.pattern().as_usize(), it.start(), it.end())).collect();
        writeln!(out, "{}", shown.join(","))?;
    }
    Ok(out.flush()?)
}

fn listed(line: &str) -> Result<Vec<Match>, Box<dyn Error>> {
    let mut words = line.split(' ');
    let mut next = || words.next().ok_or("a word is missing");
    let (mode, kind, fold, text) = (next()?, next()?, next()?, bytes(next()?)?);
    let patterns: Vec<Vec<u8>> = words.map(bytes).collect::<Result<_, _>>()?;
    let kind = match kind {
        "standard" => MatchKind::Standard,
        "leftmost-first" => MatchKind::LeftmostFirst,
        _ => MatchKind::LeftmostLongest,
    };
    let ac = AhoCorasick::builder().match_kind(kind).ascii_case_insensitive(fold == "1").build(patterns)?;
    Ok(if mode == "overlap" { ac.try_find_overlapping_iter(&text)?.collect() } else { ac.try_find_iter(&text)?.collect() })
}

fn bytes(word: &str) -> Result<Vec<u8>, Box<dyn Error>> {
    let hex = word.strip_prefix('x').ok_or("no x before the hex")?;
    let digits = |at| u8::from_str_radix(hex.get(at..at + 2).ok_or("half a byte")?, 16).map_err(Box::<dyn Error>::from);
    (0..hex.len()).step_by(2).map(digits).collect()
}
