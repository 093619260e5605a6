//! Finds the library for C, and links it: the archive, or else the shared library. It is looked for, in this order,
//!
//! 1. in PREFIX/lib of DADOFENNEL_PREFIX, where `bindings/c/build PREFIX` has put it
//! 2. in lib/TARGET of this crate, as a released crate has it for each target that it was built for
//! 3. in a clone of the repository, in bindings/c/out; it is built there first if it is missing, and `bindings/c/build` then proves it
//! 4. where pkg-config says.
//!
//! The first two run no other program.

use std::path::{Path, PathBuf};
use std::process::Command;
use std::{env, fs};

fn main() {
    println!("cargo:rerun-if-env-changed=DADOFENNEL_PREFIX");
    let lib = library();
    let archive = lib.join("libdadofennel.a");
    println!("cargo:rerun-if-changed={}", archive.display());
    println!("cargo:rustc-link-search=native={}", lib.display());
    let form = if archive.exists() { "static" } else { "dylib" };
    println!("cargo:rustc-link-lib={form}=dadofennel");
    println!("cargo:lib={}", lib.display());
    println!("cargo:rustc-env=DADOFENNEL_LIB={}", lib.display());
}

/// The folder of the library.
fn library() -> PathBuf {
    if let Some(prefix) = env::var_os("DADOFENNEL_PREFIX") {
        return present(PathBuf::from(prefix).join("lib"));
    }
    let here = PathBuf::from(env::var_os("CARGO_MANIFEST_DIR").expect("cargo names the folder of the crate"));
    let inside = here.join("lib").join(env::var_os("TARGET").expect("cargo names the target"));
    if inside.exists() {
        return present(inside);
    }
    let c = here.join("../../c");
    if c.join("build").exists() {
        let out = c.join("out");
        if !out.join("lib/libdadofennel.a").exists() {
            run(Command::new(c.join("build")).arg(&out));
        }
        return present(fs::canonicalize(out).expect("the library was built").join("lib"));
    }
    let said = run(Command::new("pkg-config").args(["--variable=libdir", "dadofennel"]));
    present(PathBuf::from(said.trim()))
}

fn present(lib: PathBuf) -> PathBuf {
    let names = ["libdadofennel.a", "libdadofennel.so"];
    assert!(names.iter().any(|name| Path::new(&lib).join(name).exists()), "there is no libdadofennel in {}", lib.display());
    lib
}

/// What a command writes. The build ends where it fails.
fn run(command: &mut Command) -> String {
    let done = command.output().unwrap_or_else(|error| panic!("{command:?}: {error}"));
    assert!(done.status.success(), "{command:?} failed: {}", String::from_utf8_lossy(&done.stderr));
    String::from_utf8_lossy(&done.stdout).into_owned()
}
