//! Wrong inputs: each is said to be wrong at its line, and none ends the command in another way.

mod command;

use command::network;
use reference::random::Random;
use std::collections::BTreeSet;

/// Networks as text, each with the line of its first mistake.
const TEXTS: [(usize, &str); 46] = [
    (1, ""),
    (2, "# only\n# comments\n"),
    (1, "Nodes 3\n"),
    (1, "nodes\n"),
    (1, "nodes three\n"),
    (1, "nodes 3 4\n"),
    (1, "nodes -3\n"),
    (1, "nodes 99999999999999999999999\n"),
    (1, "link 0-1:1\nnodes 2\n"),
    (3, "nodes 2\nlink 0-1:1\nnodes 2\n"),
    (2, "nodes 2\nlinks 0-1:1\n"),
    (2, "nodes 2\nlink\n"),
    (2, "nodes 2\nlink 0\n"),
    (2, "nodes 2\nlink 0-\n"),
    (2, "nodes 2\nlink 0-1\n"),
    (2, "nodes 2\nlink 0-1:\n"),
    (2, "nodes 2\nlink 0-1:one\n"),
    (2, "nodes 2\nlink 0-1:1.5\n"),
    (2, "nodes 2\nlink 0-1:4294967296\n"),
    (2, "nodes 2\nlink 0,1:1\n"),
    (2, "nodes 2\nlink 0-1:1 trunk\n"),
    (2, "nodes 2\nlink 0-1:1 trunk 65536\n"),
    (2, "nodes 2\nlink 0-1:1 trunk 1 2\n"),
    (2, "nodes 2\nlink 0-1:1 name\n"),
    (2, "nodes 2\nlink 0-1:1 name \"x\n"),
    (2, "nodes 2\nlink 0-1:1 label x\n"),
    (2, "nodes 2\nlink hall-A-hall-B:1\n"),
    (2, "nodes 2\nnode\nlink 0-1:1\n"),
    (2, "nodes 2\nnode 1\nlink 0-1:1\n"),
    (2, "nodes 2\nnode x y\nlink 0-1:1\n"),
    (2, "nodes 2\nnode 2 x\nlink 0-1:1\n"),
    (3, "nodes 2\nnode 1 x\nnode 1 y\nlink 0-1:1\n"),
    (3, "nodes 2\nnode 1 x\nnode 0 x\nlink 0-1:1\n"),
    (2, "nodes 2\nnode 1 0\nlink 0-1:1\n"),
    (2, "nodes 2\nnode 1 a\u{7}b\nlink 0-1:1\n"),
    (3, "nodes 2\nlink 0-1:1\ntree\n"),
    (3, "nodes 2\nlink 0-1:1\ntree share\n"),
    (3, "nodes 2\nlink 0-1:1\ntree share x links 0\n"),
    (3, "nodes 2\nlink 0-1:1\ntree share 1\n"),
    (3, "nodes 2\nlink 0-1:1\ntree share 1 links zero\n"),
    (3, "nodes 2\nlink 0-1:1\ntree share 1 links 1\n"),
    (3, "nodes 2\nlink 0-1:1\ntree share 1 links 0 0\n"),
    (3, "nodes 2\nlink 0-1:1\ntree share 4294967296 links 0\n"),
    (4, "nodes 2\nlink 0-1:1\ntree share 1 links 0\nlink 0-1:1\n"),
    (2, "nodes 2\n\u{1b}[2J\n"),
    (2, "nodes 2\nlink 0-1:\u{ff11}\n"),
];

/// Cable lists, each with the line of its first mistake.
const LISTS: [(usize, &str); 22] = [
    (1, ""),
    (1, "core,hall,100\n"),
    (1, "from,to\ncore,hall\n"),
    (1, "from,to,capacity,length\na,b,1,2\n"),
    (1, "from,to,to,capacity\na,b,c,1\n"),
    (1, "from,to,capacity\n"),
    (2, "from,to,capacity\na,b\n"),
    (2, "from,to,capacity\na,b,1,2\n"),
    (2, "from,to,capacity\n,b,1\n"),
    (2, "from,to,capacity\na,,1\n"),
    (2, "from,to,capacity\na,a,1\n"),
    (3, "from,to,capacity\na,b,1\na, a ,1\n"),
    (2, "from,to,capacity\na,b,\n"),
    (2, "from,to,capacity\na,b,x\n"),
    (2, "from,to,capacity\na,b,-1\n"),
    (2, "from,to,capacity\na,b,1.5\n"),
    (2, "from,to,capacity\na,b,4294967296\n"),
    (2, "from,to,capacity\na,b,\"1,000\"\n"),
    (3, "from,to,capacity\na,b,1\n\"a,b,1\nc,d,1\n"),
    (2, "from,to,capacity\n\"a\"b,c,1\n"),
    (2, "from,to,capacity\na,b\u{7}c,1\n"),
    (2, "from,to,capacity,name\na,b,1,\u{1b}[2J\n"),
];

/// The lines named by the messages of a file, which are all of this form: the file's name, the line, and what is wrong.
#[track_caller]
fn lines_named(arguments: &[&str], input: &[u8]) -> Vec<usize> {
    let (status, printed, errors) = network(arguments, input);
    assert_eq!((status, printed.len()), (Some(1), 0), "{arguments:?}: {errors}");
    let line = |message: &str| {
        let rest = message.strip_prefix("standard input:").expect(message);
        let (line, what) = rest.split_once(": ").expect(message);
        assert!(!what.is_empty() && !what.contains(char::is_control), "{message:?}");
        line.parse().expect(message)
    };
    errors.lines().map(line).collect()
}

#[test]
fn more_than_60_wrong_inputs_have_their_line_named() {
    assert!(TEXTS.len() + LISTS.len() > 60);
    for (line, text) in TEXTS {
        let of_a_tree = text.lines().nth(line - 1).is_some_and(|line| line.starts_with("tree"));
        for subcommand in if of_a_tree { &["report", "list"][..] } else { &["report", "list", "fit"] } {
            assert_eq!(lines_named(&[subcommand], text.as_bytes()).first(), Some(&line), "{text:?}");
        }
    }
    for (line, list) in LISTS {
        assert_eq!(lines_named(&["import"], list.as_bytes()).first(), Some(&line), "{list:?}");
    }
    assert_eq!(lines_named(&["report"], b"nodes 2\nlink 0-1:1 name K\xfchlhaus\n"), [2]);
    assert_eq!(lines_named(&["import"], b"from,to,capacity\na,K\xfchlhaus,1\n"), [2]);
}

#[test]
fn all_mistakes_of_a_file_are_said_in_one_run() {
    let mut text = "nodes 9\n".to_string();
    let mut expected = Vec::new();
    let mut lines = 1;
    for (line, wrong) in TEXTS {
        let only_line = wrong.lines().nth(line - 1).unwrap_or_default();
        if line == 2 && only_line.starts_with("link") {
            text.push_str(&format!("# sound\n{only_line}\n"));
            lines += 2;
            expected.push(lines);
        }
    }
    let named: BTreeSet<usize> = lines_named(&["report"], text.as_bytes()).into_iter().collect();
    assert_eq!(named, expected.into_iter().collect());
}

/// What stands in these files, with bytes left out, doubled or changed, and bytes of no kind.
#[test]
fn damaged_files_end_with_a_status_of_the_command() {
    let mut random = Random::new(4);
    let subcommands = ["report", "fit", "list", "picture", "dot", "export", "sheet", "text", "import"];
    let sound =
        "nodes 4\nnode 1 \"a #1\"\nlink 0-1:5 trunk 3 name b\nlink 1-2:6\nlink 2-3:7\ntree share 2 links 0 1 2\n";
    let list = "from,to,capacity,name\n\"a, b\",c,1,\"x\"\"y\"\nc,d,2,\n";
    for round in 0..300 {
        let mut bytes = match round % 3 {
            0 => sound.as_bytes().to_vec(),
            1 => list.as_bytes().to_vec(),
            _ => reference::documented::CASE_A.to_vec(),
        };
        for _ in 0..random.between(1, 4) {
            let place = random.below(bytes.len().max(1));
            match random.below(4) {
                0 if place < bytes.len() => drop(bytes.remove(place)),
                1 if place < bytes.len() => bytes[place] = random.byte(),
                2 => bytes.insert(place, random.pick(b"\"#,:-0 \n\r\t9\xff\0")),
                _ => bytes.truncate(place),
            }
        }
        let subcommand = random.pick(&subcommands);
        let (status, _, errors) = network(&[subcommand], &bytes);
        assert!(
            status.is_some_and(|status| [0, 1, 3].contains(&status)),
            "{subcommand} {bytes:?}: {status:?} {errors}"
        );
        assert_eq!(
            status == Some(0) || subcommand == "report" && status == Some(3),
            errors.is_empty(),
            "{subcommand}: {errors}"
        );
    }
}
