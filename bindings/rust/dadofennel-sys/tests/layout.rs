//! The declarations are those of the header: the size of each structure, the place of each field, the value of each constant.

use std::mem::size_of;
use std::process::Command;
use std::{env, fs};

use dadofennel_sys::*;

/// The size of a structure and the places of its fields, by the names that the header has for them.
macro_rules! laid_out {
    ($($name:ident { $($field:ident),* })*) => {
        vec![$(
            (format!("sizeof({})", stringify!($name)), size_of::<$name>()),
            $((format!("offsetof({}, {})", stringify!($name), stringify!($field)), {
                let it = std::mem::MaybeUninit::<$name>::uninit();
                // SAFETY: a place is computed, and nothing is read.
                let field = unsafe { std::ptr::addr_of!((*it.as_ptr()).$field) };
                field as usize - it.as_ptr() as usize
            }),)*
        )*]
    };
}

macro_rules! valued {
    ($($name:ident)*) => { vec![$((stringify!($name).to_string(), $name as usize),)*] };
}

#[test]
fn like_the_header() {
    let mut ours = laid_out! {
        dado_bytes { at, len }
        dado_pair { a, b }
        dado_match { start, end, pattern }
        dado_settings { kind, start_kind, engine, fold, prefilter, byte_classes, dense_depth, row_memory, pairs, pair_count }
        dado_fault { count, pattern }
        dado_span { start, end, anchored, earliest }
        dado_cursor { start, end, last, anchored, earliest }
        dado_place { start, end, last, begun }
        dado_text { owner, at, len }
        dado_held { at, len, from, cut }
    };
    ours.extend(valued! {
        DADO_OK DADO_NONE DADO_NO_AUTOMATON DADO_BAD_ARGUMENT DADO_NO_MEMORY DADO_TOO_MANY_STATES DADO_TOO_MANY_PATTERNS
        DADO_PATTERN_TOO_LONG DADO_BAD_KIND DADO_BAD_START_KIND DADO_BAD_ENGINE DADO_BAD_PAIRS DADO_NOT_ANCHORED DADO_NOT_UNANCHORED
        DADO_NOT_STANDARD DADO_BAD_SPAN DADO_BAD_CURSOR DADO_WRONG_COUNT DADO_TOO_SHORT DADO_BAD_PATTERN
        DADO_EMPTY_PATTERN DADO_NO_STREAM DADO_FINISHED DADO_TOO_MANY_BYTES DADO_NO_REPLACER DADO_NO_MASKER
        DADO_STANDARD DADO_LEFTMOST_FIRST DADO_LEFTMOST_LONGEST DADO_UNANCHORED DADO_ANCHORED DADO_BOTH
        DADO_AUTO DADO_NONCONTIGUOUS DADO_CONTIGUOUS DADO_DFA
    });
    let lines: String = ours.iter().map(|(name, _)| format!("printf(\"%zu\\n\", (size_t)({name}));\n")).collect();
    let lib = env!("DADOFENNEL_LIB");
    let said = run_c(&format!("#include <stdio.h>\n#include \"dadofennel.h\"\nint main(void) {{\n{lines}return 0;\n}}\n"), lib);
    let theirs: Vec<usize> = said.lines().map(|line| line.parse().unwrap()).collect();
    assert_eq!(ours.len(), theirs.len());
    for ((name, our), their) in ours.iter().zip(theirs) {
        assert_eq!(*our, their, "{name}");
    }
}

/// What a program in C writes, compiled by CC, or `cc`, with the header beside the library.
fn run_c(source: &str, lib: &str) -> String {
    let folder = env::temp_dir().join(format!("dadofennel-layout-{}", std::process::id()));
    fs::create_dir_all(&folder).unwrap();
    let (file, program) = (folder.join("layout.c"), folder.join("layout"));
    fs::write(&file, source).unwrap();
    let cc = env::var("CC").unwrap_or_else(|_| "cc".to_string());
    let include = format!("{lib}/../include");
    let built = Command::new(cc)
        .args(["-std=c99", "-I", &include, "-o"])
        .args([&program, &file])
        .arg(format!("{lib}/libdadofennel.a"))
        .status();
    assert!(built.unwrap().success());
    let said = Command::new(&program).output().unwrap();
    fs::remove_dir_all(&folder).unwrap();
    String::from_utf8(said.stdout).unwrap()
}
