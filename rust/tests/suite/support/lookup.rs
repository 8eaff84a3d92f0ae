//! The program `lookup`, run.

use std::env;
use std::io::{ErrorKind, Write};
use std::path::{Path, PathBuf};
use std::process::{Command, Stdio};
use std::thread;

use super::sheet;

/// What the program prints for this sheet. It is what the sheet's definition
/// gives.
#[track_caller]
pub fn lookup(bytes: &[u8]) -> String {
    let expected = sheet::answer(bytes);
    let printed = run(bytes);
    assert!(
        printed == expected.as_bytes(),
        "for the sheet {:?} it prints {:?}, not {:?}",
        few(bytes),
        few(&printed),
        few(expected.as_bytes())
    );
    expected
}

/// The program prints this for the sheet.
#[track_caller]
pub fn prints(sheet: impl AsRef<[u8]>, expected: &str) {
    assert_eq!(lookup(sheet.as_ref()), expected);
}

/// The program refuses the sheet with this number.
#[track_caller]
pub fn refuses(sheet: impl AsRef<[u8]>, number: u32) {
    prints(sheet, &format!("(refused {number})\n"));
}

/// Bytes to read where a test fails, not too many of them.
fn few(bytes: &[u8]) -> String {
    let some = &bytes[..bytes.len().min(1_000)];
    let more = bytes.len() - some.len();
    format!("{} .. {more} bytes more", some.escape_ascii())
}

/// What the program writes to standard output when it reads these bytes. It
/// ends well and writes nothing else.
#[track_caller]
pub fn run(bytes: &[u8]) -> Vec<u8> {
    let program = program();
    let mut child = Command::new(&program)
        .stdin(Stdio::piped())
        .stdout(Stdio::piped())
        .stderr(Stdio::piped())
        .spawn()
        .unwrap_or_else(|error| panic!("{} does not start: {error}", program.display()));
    let mut input = child.stdin.take().expect("it was piped");
    let output = thread::scope(|scope| {
        scope.spawn(move || match input.write_all(bytes) {
            // A sheet that is too long need not be read to its end.
            Err(error) if error.kind() == ErrorKind::BrokenPipe => (),
            written => written.expect("the sheet can be handed over"),
        });
        child.wait_with_output().expect("the program ends")
    });
    assert!(output.status.success(), "it ends with {}", output.status);
    assert!(output.stderr.is_empty(), "it writes to standard error");
    output.stdout
}

/// `MOPEKIHUA_LOOKUP`, or where `make lookup` builds it.
fn program() -> PathBuf {
    match env::var_os("MOPEKIHUA_LOOKUP") {
        Some(program) if !program.is_empty() => program.into(),
        _ => Path::new(env!("CARGO_MANIFEST_DIR")).join("../target/bin/lookup"),
    }
}
