//! Every function of the C library has its places (docs/ADDING.md). Its declarations in C and in Rust
//! are written by `dev/declare`, which must see where they differ from what `crates/host_c` defines.

use std::collections::BTreeSet;
use std::fs;
use std::path::{Path, PathBuf};
use std::process::{Command, Output};

const DEFINED: &str = "crates/host_c/src/lib.rt";
const CALLED: &str = "crates/host/src/lib.rt";
const HEADER: &str = "include/sillurwy.h";
const FFI: &str = "host/src/ffi.rs";

fn path(name: &str) -> PathBuf {
    Path::new(env!("CARGO_MANIFEST_DIR")).join("..").join(name)
}

fn read(name: &str) -> String {
    fs::read_to_string(path(name)).unwrap_or_else(|error| panic!("{name}: {error}"))
}

/// The text of a file, or of all files in a directory; nothing where there is none.
fn text_at(name: &str) -> String {
    match fs::read_dir(path(name)) {
        Err(_) => fs::read_to_string(path(name)).unwrap_or_default(),
        Ok(entries) => entries
            .map(|entry| fs::read_to_string(entry.expect("it can be read").path()))
            .map(|text| text.expect("it is text"))
            .collect(),
    }
}

/// The functions that `crates/host_c` defines, without their prefix.
fn defined() -> BTreeSet<String> {
    let text = read(DEFINED);
    let parts = text.split("pub extern \"C\" fn sillurwy_").skip(1);
    let names = parts.filter_map(|part| part.split('(').next());
    let names: BTreeSet<String> = names.map(str::to_string).collect();
    assert!(names.len() >= 16, "{names:?}");
    names
}

/// The part of the requirement that a function belongs to, as its comparison says.
fn part_of(name: &str) -> String {
    let text = text_at(&format!("oracle/src/ops/{name}.rs"));
    let part = text.split("part: \"").nth(1);
    let part = part.and_then(|rest| rest.split('"').next());
    part.unwrap_or("PART").to_string()
}

/// What a function has, where, and what is found there; the last may be one of several. PART stands for
/// the part that the function belongs to.
const PLACES: [(&str, &str, &str); 14] = [
    ("a wrapper", "host/src", "ffi::NAME("),
    ("a line of the modules", "host/src/lib.rs", "::NAME)"),
    ("a case", "host/tests/stored.rs", "::NAME( or ::NAME_lent("),
    ("a call", "tests/c/replay.c", "sillurwy_NAME("),
    ("a call", "tests/c/fuzz.c", "sillurwy_NAME("),
    ("a target", "tests/c/fuzz.c", "{\"NAME\", NAME, "),
    ("its comparison", "oracle/src/ops/NAME.rs", "ffi::NAME"),
    ("a row", "oracle/src/ops/mod.rs", "NAME::OPERATION"),
    (
        "a wrong port that must be found",
        "oracle/tests/mistakes/NAME.rs",
        "is_found::< or is_found_at_boundary::< or each_is_found(",
    ),
    (
        "a `mod` line",
        "oracle/tests/mistakes/main.rs",
        "\nmod NAME;",
    ),
    ("a function", "crates/replay_calls/src/PART.rt", "sillurwy_NAME("),
    ("a line", "crates/replay_calls/src/lib.rt", "::NAME("),
    ("a word", "README.md", "`sillurwy_NAME`"),
    ("its stored calls", "oracle/README.md", "`NAME`"),
];

#[test]
fn every_function_has_its_places() {
    let mut missing = Vec::new();
    for name in defined() {
        for (what, place, patterns) in PLACES {
            let place = place.replace("NAME", &name);
            let place = place.replace("PART", &part_of(&name));
            let (text, patterns) = (text_at(&place), patterns.replace("NAME", &name));
            if !patterns.split(" or ").any(|one| text.contains(one)) {
                missing.push(format!("sillurwy_{name} has not {what} in {place}"));
            }
        }
    }
    assert!(missing.is_empty(), "{missing:#?}");
}

#[test]
fn every_constant_of_the_header_has_its_line() {
    let (header, lines) = (read(HEADER), read("tests/c/header.c"));
    let defined = header.lines().filter_map(|line| {
        let line = line.trim_start().trim_start_matches("#define ");
        line.starts_with("SILLURWY_")
            .then(|| line.split([' ', '(']).next())?
    });
    // Neither the guard of the header nor what the macros are made of.
    let names = defined.filter(|name| !["SILLURWY_H", "SILLURWY_BY_MODE"].contains(name));
    let held = |name: &&str| {
        [" ==", "("]
            .iter()
            .any(|end| lines.contains(&format!("{name}{end}")))
    };
    let (held, missing): (Vec<&str>, Vec<&str>) = names.partition(held);
    assert!(
        held.len() >= 30 && missing.is_empty(),
        "constants of {HEADER} without a line in tests/c/header.c: {missing:?}"
    );
}

/// A directory that has copies of some files, and in one of them one text for another.
struct Copies {
    root: PathBuf,
}

impl Drop for Copies {
    fn drop(&mut self) {
        let _ = fs::remove_dir_all(&self.root);
    }
}

impl Copies {
    /// Copies of what `dev/declare` reads and writes.
    fn with(case: &str, changed: &str, from: &str, to: &str) -> Copies {
        Copies::of(&[DEFINED, CALLED, HEADER, FFI], case, changed, from, to)
    }

    fn of(files: &[&str], case: &str, changed: &str, from: &str, to: &str) -> Copies {
        // Outside the repository, where `rt ci` takes no Rattle file that no crate has.
        let name = format!("sillurwy-{}-{case}", std::process::id());
        let root = std::env::temp_dir().join(name);
        for &file in files {
            let mut text = read(file);
            if file == changed {
                assert!(text.contains(from), "{file} has no {from}");
                text = text.replacen(from, to, 1);
            }
            let copy = root.join(file);
            fs::create_dir_all(copy.parent().unwrap()).unwrap();
            fs::write(copy, text).unwrap();
        }
        Copies { root }
    }

    fn run(&self, script: &str, words: &[&str]) -> Output {
        let mut command = Command::new(path(script));
        command.args(words).env("SILLURWY_ROOT", &self.root);
        command.output().unwrap_or_else(|_| panic!("{script} runs"))
    }

    fn declare(&self, words: &[&str]) -> Output {
        self.run("dev/declare", words)
    }

    fn texts(&self) -> [String; 3] {
        [DEFINED, HEADER, FFI].map(|file| fs::read_to_string(self.root.join(file)).unwrap())
    }
}

/// A text of the files for another, and what must be said of it.
fn must_see(case: &str, changed: &str, from: &str, to: &str, said: &str) -> Copies {
    let copies = Copies::with(case, changed, from, to);
    let before = copies.texts();
    let output = copies.declare(&["--check"]);
    let words = String::from_utf8_lossy(&output.stderr);
    assert_eq!(output.status.code(), Some(1), "{case}: {words}");
    assert!(words.contains(said), "{case}: {words}");
    assert!(copies.texts() == before, "{case}: a check writes nothing");
    copies
}

#[test]
fn a_declaration_that_differs_is_seen_and_written_again() {
    let same = Copies::with("same", HEADER, "", "");
    assert!(same.declare(&["--check"]).status.success());
    let header = |case, from, to| must_see(case, HEADER, from, to, HEADER);
    let ffi = |case, from, to| must_see(case, FFI, from, to, FFI);
    for copies in [
        header(
            "type",
            "uint8_t mode, size_t k,",
            "uint8_t mode, uint32_t k,",
        ),
        header("const", "(const float *samples", "(float *samples"),
        header("order", "float re, float im", "float im, float re"),
        header(
            "returned",
            "float sillurwy_norm32",
            "double sillurwy_norm32",
        ),
        header(
            "signed",
            "\nint32_t sillurwy_angle",
            "\nuint32_t sillurwy_angle",
        ),
        header("size", "kinds[SILLURWY_SEGMENTS]", "kinds[SILLURWY_PHASES]"),
        header("place", "sillurwy_narrow(double x)", "sillurwy_narrow()"),
        ffi("name", "pub fn root(x: f64)", "pub fn root(y: f64)"),
        ffi("call", "c::sillurwy_root(x)", "c::sillurwy_narrow(x)"),
        ffi("length", "kinds.len(),", "out.len(),"),
        ffi("word", "/// The FFT bin", "/// A bin"),
    ] {
        let output = copies.declare(&[]);
        assert!(output.status.success(), "{output:?}");
        assert!(copies.texts() == same.texts());
    }
    let to = "sillurwy_root(x: f64, y: &mut [u8])";
    must_see("argument", DEFINED, "sillurwy_root(x: f64)", to, FFI);
}

#[test]
fn a_clause_that_differs_is_seen() {
    let said = "does not say of each function";
    for (case, from, to) in [
        ("clause", "result ≡ root_of x", "result ≡ narrow_of x"),
        ("second words", "// The f32 nearest to x.", "// Nearest to x."),
        ("parameter", "sillurwy_root(x: f64)", "sillurwy_root(y: f64)"),
    ] {
        must_see(case, CALLED, from, to, said);
    }
}

#[test]
fn an_arctangent_that_differs_is_seen_and_written_again() {
    const SCRIPT: &str = "dev/arctangents";
    const TABLES: [&str; 2] = [
        "crates/angle/specs/Arctangents.antt",
        "crates/angle/src/arctangents.rt",
    ];
    for (case, changed, from, to) in [
        ("defined entry", TABLES[0], " 652 ", " 653 "),
        ("coded entry", TABLES[1], " 652,", " 653,"),
        ("last entry", TABLES[1], " 32768,\n];", " 32767,\n];"),
    ] {
        let copies = Copies::of(&TABLES, case, changed, from, to);
        let output = copies.run(SCRIPT, &["--check"]);
        let words = String::from_utf8_lossy(&output.stderr);
        assert_eq!(output.status.code(), Some(1), "{case}: {words}");
        assert!(words.contains(changed), "{case}: {words}");
        assert!(copies.run(SCRIPT, &[]).status.success(), "{case}");
        assert!(copies.run(SCRIPT, &["--check"]).status.success(), "{case}");
        let text = fs::read_to_string(copies.root.join(changed)).unwrap();
        assert_eq!(text, read(changed), "{case}");
    }
}

#[test]
fn a_function_without_a_declaration_is_not_written() {
    let added =
        "// Its words.\npub extern \"C\" fn sillurwy_added(x: f64) -> u8\n{ 0 }\n\n// The norm";
    for (case, changed, from, to, said) in [
        (
            "prototype",
            HEADER,
            "float sillurwy_narrow(double x);",
            "",
            "no place for sillurwy_narrow",
        ),
        (
            "added",
            DEFINED,
            "// The norm",
            added,
            "no place for sillurwy_added",
        ),
        (
            "left",
            DEFINED,
            "fn sillurwy_root(",
            "fn root(",
            "declares sillurwy_root, which",
        ),
        (
            "twice",
            HEADER,
            "double sillurwy_root(double x);",
            "double sillurwy_root();\ndouble sillurwy_root();",
            "sillurwy_root twice",
        ),
        (
            "unknown",
            DEFINED,
            "sillurwy_root(x: f64)",
            "sillurwy_root(x: bool)",
            "no type in C for bool",
        ),
        (
            "words",
            DEFINED,
            "// The f32 nearest to x.\n",
            "",
            "sillurwy_narrow has no comment",
        ),
    ] {
        let copies = must_see(case, changed, from, to, said);
        let before = copies.texts();
        assert_eq!(copies.declare(&[]).status.code(), Some(1), "{case}");
        assert!(copies.texts() == before, "{case}: nothing is written");
    }
}
