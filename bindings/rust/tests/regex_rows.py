"""The rows of the crate regex's testdata that one search by its public types answers, as a test of Rust each.

A row has a regex, a text and all matches. Rows with several regexes, of a span, of an anchored, earliest or overlapping search, and
those of other kinds of match are left out: `Regex::find_iter` has no such search. What groups match isn't compared."""
import glob
import os
import re

HEAD = """\
//! The rows of testdata, as regex_rows.py has written them.

fn bytes(regex: &str, unicode: bool, fold: bool, end: u8, text: &[u8], matches: &[(usize, usize)], limit: usize) {
    let mut builder = regex::bytes::RegexBuilder::new(regex);
    let regex = builder.unicode(unicode).case_insensitive(fold).line_terminator(end).build().unwrap();
    let found: Vec<_> = regex.find_iter(text).take(limit).map(|it| (it.start(), it.end())).collect();
    assert_eq!(matches, found);
    assert_eq!(!matches.is_empty(), regex.is_match(text));
}

fn string(regex: &str, unicode: bool, fold: bool, end: u8, text: &[u8], matches: &[(usize, usize)], limit: usize) {
    let mut builder = regex::RegexBuilder::new(regex);
    let regex = builder.unicode(unicode).case_insensitive(fold).line_terminator(end).build().unwrap();
    let text = std::str::from_utf8(text).unwrap();
    let found: Vec<_> = regex.find_iter(text).take(limit).map(|it| (it.start(), it.end())).collect();
    assert_eq!(matches, found);
    assert_eq!(!matches.is_empty(), regex.is_match(text));
}

"""

ESCAPES = {b"n": b"\n", b"r": b"\r", b"t": b"\t", b"0": b"\0", b"\\": b"\\", b"'": b"'", b'"': b'"'}


def unescaped(text):
    one = lambda it: bytes([int(it[1][1:], 16)]) if it[1][:1] == b"x" else ESCAPES[it[1]]  # noqa: E731
    return re.sub(rb"\\(x[0-9A-Fa-f]{2}|.)", one, text)


def row_bytes(row, key):
    text = row[key].encode()
    return unescaped(text) if row.get("unescape") and key != "regex" else text


def answered(row):
    """Whether one search answers a row."""
    asked = [row.get("search-kind", "leftmost"), row.get("match-kind", "leftmost-first")]
    plain = not row.get("anchored") and "bounds" not in row and row.get("compiles", True)
    return asked == ["leftmost", "leftmost-first"] and plain and isinstance(row["regex"], str)


def span(found):
    """The span of a match, in each of the forms that a row has it."""
    if isinstance(found, dict):
        found = found.get("span") or found["spans"][0]
    return found[0] if isinstance(found[0], list) else found


def literal(text):
    """Bytes as Rust has them."""
    return 'b"' + "".join(chr(it) if 32 <= it < 127 and it not in b'\\"' else f"\\x{it:02x}" for it in text) + '"'


def rust(name, row):
    """A row as a test; none, where the type that it is for can't have the text."""
    text, kind = row_bytes(row, "haystack"), "string" if row.get("utf8", True) else "bytes"
    if kind == "string":
        try:
            text.decode()
        except UnicodeDecodeError:
            return None
    end = unescaped(row["line-terminator"].encode())[0] if "line-terminator" in row else 10
    pattern = "".join(it if 32 <= ord(it) < 127 and it not in '\\"' else f"\\u{{{ord(it):x}}}" for it in row["regex"])
    spans = ", ".join(f"({start}, {stop})" for start, stop in map(span, row["matches"]))
    limit = row.get("match-limit", "usize::MAX")
    flags = f"{str(row.get('unicode', True)).lower()}, {str(row.get('case-insensitive', False)).lower()}, {end}"
    return f'#[test]\nfn {name}() {{\n    {kind}("{pattern}", {flags}, {literal(text)}, &[{spans}], {limit});\n}}\n'


def written(testdata):
    """A file of Rust with a test for each row of a folder that is answered."""
    import tomllib  # of Python 3.11

    tests = []
    for path in sorted(glob.glob(f"{testdata}/*.toml") + glob.glob(f"{testdata}/fowler/*.toml")):
        with open(path, "rb") as file:
            rows = tomllib.load(file).get("test", [])
        group = re.sub(r"\W", "_", os.path.basename(path)[:-5])
        for number, row in enumerate(rows):
            if group != "regex_lite" and answered(row):
                tests.append(rust(f"{group}_{number}", row))
    return HEAD + "\n".join(filter(None, tests))
