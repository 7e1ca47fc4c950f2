//! Pairs that cannot be written. The one test here has a process of its own, as that of lost output has.

mod command;

use command::{finish, start};
use std::fs::File;
use std::process::Stdio;

const TEXT: &[u8] = b"nodes 3\nlink 0-1:3\nlink 1-2:2\nlink 0-2:3\ntree share 2 links 0 2\n";

#[test]
fn lost_pairs_are_an_error() {
    for arguments in [&["pairs", "-", "0"][..], &["pairs", "--json", "-", "0"]] {
        // the command reads its input, which comes when the pipe is closed, before it prints
        let mut unread = start(arguments, Stdio::piped());
        drop(unread.stdout.take());
        assert_eq!(finish(unread, TEXT), (Some(1), vec![], String::new()), "{arguments:?}");
        let full = File::create("/dev/full").expect("a file that cannot be written");
        let (status, _, errors) = finish(start(arguments, full.into()), TEXT);
        assert_eq!((status, errors.lines().count()), (Some(1), 1), "{errors}");
        assert!(errors.starts_with("standard output: "), "{errors}");
    }
}
