//! Runs the command `network`, in the folder that cargo has for tests.
#![allow(dead_code)] // no test uses all of it

use std::io::Write;
use std::path::Path;
use std::process::{Child, Command, Stdio};

pub fn start(arguments: &[&str], output: Stdio) -> Child {
    Command::new(env!("CARGO_BIN_EXE_network"))
        .args(arguments)
        .current_dir(env!("CARGO_TARGET_TMPDIR"))
        .stdin(Stdio::piped())
        .stdout(output)
        .stderr(Stdio::piped())
        .spawn()
        .expect("the command starts")
}

/// Exit status, standard output and standard error of the command that was started, after this input.
pub fn finish(mut child: Child, input: &[u8]) -> (Option<i32>, Vec<u8>, String) {
    // a command that only prints its usage may have ended before it reads
    let _ = child.stdin.take().expect("its standard input").write_all(input);
    let output = child.wait_with_output().expect("the command ends");
    (output.status.code(), output.stdout, String::from_utf8(output.stderr).expect("text"))
}

/// The same of the command with these arguments.
pub fn network(arguments: &[&str], input: &[u8]) -> (Option<i32>, Vec<u8>, String) {
    finish(start(arguments, Stdio::piped()), input)
}

/// What the command prints, if it ends well and says nothing else.
#[track_caller]
pub fn printed(arguments: &[&str], input: &str) -> String {
    let (status, printed, errors) = network(arguments, input.as_bytes());
    assert_eq!((status, errors.as_str()), (Some(0), ""), "{arguments:?}");
    String::from_utf8(printed).expect("text")
}

/// The path of a file in `examples/`.
pub fn example(name: &str) -> String {
    Path::new(env!("CARGO_MANIFEST_DIR")).join("../examples").join(name).to_string_lossy().into_owned()
}

/// The paths of all files there.
fn examples() -> impl Iterator<Item = String> {
    let entries = std::fs::read_dir(example("")).expect("examples");
    entries.map(|entry| entry.expect("a file").path().to_string_lossy().into_owned())
}

/// The paths of the networks there that the monitor accepts.
pub fn accepted_examples() -> impl Iterator<Item = String> {
    examples().filter(|file| file.ends_with(".net") && !file.contains("/refused-"))
}

/// Of the files there that have no list, refused networks and a cable list, a subcommand with these operands behind the file says the same
/// as `list`.
#[track_caller]
pub fn assert_needs_a_list<'a>(subcommand: &'a str, operands: impl AsRef<[&'a str]>) {
    let mut refused = 0;
    for file in examples().filter(|file| file.contains("/refused-") || file.ends_with("plant.csv")) {
        let listed = network(&["list", &file], b"");
        assert_eq!(listed.0, Some(if file.contains("/refused-") { 3 } else { 1 }));
        assert_eq!(network(&[&[subcommand, &file], operands.as_ref()].concat(), b""), listed);
        assert_eq!(network(&[&[subcommand, "--json", &file], operands.as_ref()].concat(), b""), listed);
        refused += 1;
    }
    assert!(refused > 5);
}

/// docs/REPORT.md shows these lines, indented and with nothing else beside them.
#[track_caller]
pub fn assert_on_page(lines: &str) {
    let indented = format!("    {}\n", lines.trim_end().replace('\n', "\n    ")).replace("\n    \n", "\n\n");
    assert!(include_str!("../../../docs/REPORT.md").contains(&format!("\n\n{indented}\n")), "{indented}");
}
