//! Replaces words in what standard input has, while it is read: `replace WORD=REPLACEMENT..`.

use std::io;

use dadofennel::AhoCorasick;

fn main() -> Result<(), Box<dyn std::error::Error>> {
    let arguments: Vec<String> = std::env::args().skip(1).collect();
    let rules: Vec<(&str, &str)> =
        arguments.iter().map(|it| it.split_once('=').ok_or("WORD=REPLACEMENT")).collect::<Result<_, _>>()?;
    let ac = AhoCorasick::new(rules.iter().map(|rule| rule.0))?;
    let replacements: Vec<&str> = rules.iter().map(|rule| rule.1).collect();
    ac.try_stream_replace_all(io::stdin().lock(), io::stdout().lock(), &replacements)?;
    Ok(())
}
