//! The vectors on disk are those that would be written anew, and each replay prints their text.

use anduri_tests::jumps::Jumps;
use anduri_tests::oracle::Oracle;
use anduri_tests::vectors::{readme, vectors};
use anduri_tests::{run, Replay};
use std::collections::BTreeSet;
use std::fs;
use std::io::Write;
use std::path::{Path, PathBuf};
use std::process::{Command, Stdio};
use std::time::Duration;

fn folder() -> PathBuf {
    Path::new(env!("CARGO_MANIFEST_DIR")).join("vectors")
}

#[test]
fn files_are_as_written_anew() {
    let all = vectors();
    let mut expected = BTreeSet::from(["README.md".to_string()]);
    for vector in &all {
        for (end, bytes) in [("log", vector.log.as_slice()), ("out", vector.text.as_bytes())] {
            let name = format!("{}.{end}", vector.name);
            assert!(fs::read(folder().join(&name)).is_ok_and(|found| found == bytes), "{name}: run make_vectors");
            assert!(expected.insert(name.clone()), "{name} stands twice");
        }
    }
    let found: BTreeSet<String> =
        fs::read_dir(folder()).unwrap().map(|entry| entry.unwrap().file_name().into_string().unwrap()).collect();
    assert_eq!(found, expected);
    assert_eq!(fs::read_to_string(folder().join("README.md")).unwrap(), readme(&all));
}

fn prints<R: Replay>(replay: &R) {
    for vector in vectors() {
        let found = replay.report(&vector.log);
        assert_eq!(String::from_utf8_lossy(&found), vector.text, "{}", vector.name);
    }
}

#[test]
fn oracle_prints_them() {
    prints(&Oracle);
}

#[test]
fn jumps_print_them() {
    prints(&Jumps);
}

#[cfg(anduri_lib)]
#[test]
fn library_prints_them() {
    prints(&anduri_tests::face::Library);
}

/// What the program prints for input that comes through a pipe, in these pieces.
fn piped(program: &Path, pieces: &[&[u8]]) -> String {
    let mut child = run(program).stdin(Stdio::piped()).stdout(Stdio::piped()).spawn().expect("the program starts");
    let mut input = child.stdin.take().unwrap();
    for piece in pieces {
        // The program may stop reading once the input is too long.
        if input.write_all(piece).and_then(|()| input.flush()).is_err() {
            break;
        }
        std::thread::sleep(Duration::from_millis(20));
    }
    drop(input);
    String::from_utf8(child.wait_with_output().unwrap().stdout).unwrap()
}

/// A test whose other half is missing compares nothing. That passes only where the library is not named either.
fn nothing_compared(reason: &str) {
    assert!(!cfg!(anduri_lib), "ANDURI_LIB names the library, and {reason}");
    println!("{reason}: nothing compared");
}

/// The printing program named by ANDURI_PROGRAM, on files, through a pipe in pieces, and on input that is too long.
#[test]
fn program_prints_them() {
    let Some(program) = std::env::var_os("ANDURI_PROGRAM").filter(|path| !path.is_empty()) else {
        return nothing_compared("ANDURI_PROGRAM names no program");
    };
    let program = Path::new(env!("CARGO_MANIFEST_DIR")).join("..").join(program);
    for vector in vectors() {
        let log = fs::File::open(folder().join(format!("{}.log", vector.name))).unwrap();
        let output = run(&program).stdin(log).output().expect("the program starts");
        assert_eq!(String::from_utf8_lossy(&output.stdout), vector.text, "{}", vector.name);
    }
    for vector in vectors().iter().filter(|vector| ["case_a", "records_1024"].contains(&vector.name.as_str())) {
        let (first, rest) = vector.log.split_at(700);
        assert_eq!(piped(&program, &[first, rest]), vector.text, "{} in two pieces", vector.name);
        let long = vec![0; 1_000_000];
        assert_eq!(piped(&program, &[&vector.log, &long]), "refused 30 at 0\n", "{} and more", vector.name);
    }
}

/// The logs of the examples have the text that stands beside them.
#[test]
fn oracle_prints_the_examples() {
    let examples = Path::new(env!("CARGO_MANIFEST_DIR")).join("../examples");
    for name in ["case_a", "watch"] {
        let [log, text] = ["log", "out"].map(|end| fs::read(examples.join(format!("{name}.{end}"))).unwrap());
        assert_eq!(String::from_utf8_lossy(&Oracle.report(&log)), String::from_utf8_lossy(&text), "{name}");
    }
}

/// The example's script writes the bytes of the vector.
#[test]
fn make_log_writes_case_a() {
    let examples = Path::new(env!("CARGO_MANIFEST_DIR")).join("../examples");
    let made = Path::new(env!("CARGO_TARGET_TMPDIR")).join("case_a.log");
    let script = [examples.join("make_log.py"), examples.join("case_a.txt"), made.clone()];
    let Ok(status) = Command::new("python3").args(script).status() else {
        return nothing_compared("python3 does not start");
    };
    assert!(status.success());
    assert!(fs::read(made).unwrap() == fs::read(folder().join("case_a.log")).unwrap());
}
