//! Output that cannot be written. The one test here has a process of its own: a pipe that it closes would stay open in a command that
//! another test starts at the same moment.

mod command;

use command::{finish, start};
use std::fs::File;
use std::process::Stdio;

/// Node 1 and node 2 are two lightest cuts.
const TEXT: &[u8] = b"nodes 3\nlink 0-1:3\nlink 1-2:2\nlink 0-2:3\ntree share 2 links 0 2\n";
const FROM_INPUT: [&[&str]; 10] = [
    &["sheet"],
    &["fit"],
    &["report"],
    &["list"],
    &["overlap", "-", "1", "2"],
    &["thickness", "-", "1", "6"],
    &["thickness", "--json", "-", "1", "7"],
    &["picture"],
    &["dot"],
    &["export"],
];

#[test]
fn lost_output_is_an_error() {
    for arguments in FROM_INPUT {
        // the command reads its input, which comes when the pipe is closed, before it prints
        let mut unread = start(arguments, Stdio::piped());
        drop(unread.stdout.take());
        assert_eq!(finish(unread, TEXT), (Some(1), vec![], String::new()), "{arguments:?}");
    }
    for arguments in FROM_INPUT.into_iter().chain([&["--help"][..]]) {
        let full = File::create("/dev/full").expect("a file that cannot be written");
        let (status, _, errors) = finish(start(arguments, full.into()), TEXT);
        assert_eq!((status, errors.lines().count()), (Some(1), 1), "{errors}");
        assert!(errors.starts_with("standard output: "), "{errors}");
    }
    // reports end at the first that cannot be printed: nothing is said of the second file
    let two_files = ["report", "-", "missing.net"];
    let mut unread = start(&two_files, Stdio::piped());
    drop(unread.stdout.take());
    assert_eq!(finish(unread, TEXT), (Some(1), vec![], String::new()));
    let full = File::create("/dev/full").expect("a file that cannot be written");
    let (status, _, errors) = finish(start(&two_files, full.into()), TEXT);
    assert_eq!((status, errors.lines().count()), (Some(1), 1), "{errors}");
    assert!(errors.starts_with("standard output: "), "{errors}");
}
