//! The command `network` as a planner runs it: what it prints, and its exit status.

mod command;

use command::{example, network};
use reference::documented::CASE_A;
use std::path::{Path, PathBuf};
use std::process::Command;

/// Document 01's case A.
const TRIANGLE: &str = "# A triangle\nnodes 3\nlink 0-1:3\nlink 1-2:2\nlink 0-2:4\ntree share 2 links 0 2\n";
const SUBCOMMANDS: [&str; 12] =
    ["import", "fit", "report", "list", "overlap", "thickness", "picture", "dot", "append", "export", "sheet", "text"];

/// A program that takes its standard input and prints the given lines, or ends with a status. A shell writes it, so that no
/// process of this test has it open when it is run.
fn stand_in(name: &str, commands: &str) -> PathBuf {
    let path = Path::new(env!("CARGO_TARGET_TMPDIR")).join(name);
    let write = "printf '#!/bin/sh\\ncat >/dev/null\\n%s\\n' \"$2\" >\"$1\" && chmod +x \"$1\"";
    let status = Command::new("sh").args(["-c", write, "sh"]).arg(&path).arg(commands).status();
    assert!(status.is_ok_and(|status| status.success()));
    path
}

/// Reports on a text, written to a file of the given name, with a stand-in for the report program.
fn report(name: &str, text: &str, commands: &str) -> (Option<i32>, String, String) {
    let folder = Path::new(env!("CARGO_TARGET_TMPDIR"));
    std::fs::write(folder.join(name), text).expect("a file for the network");
    let program = stand_in(&format!("{name}.program"), commands);
    let (status, printed, errors) = network(&["report", "--program", &program.to_string_lossy(), name], b"");
    (status, String::from_utf8(printed).expect("text"), errors)
}

#[test]
fn help_is_printed_with_status_0() {
    let (status, all, errors) = network(&["--help"], b"");
    assert_eq!((status, errors.as_str()), (Some(0), ""));
    let all = String::from_utf8(all).expect("text");
    for subcommand in SUBCOMMANDS {
        let (status, one, errors) = network(&[subcommand, "--help"], b"");
        let one = String::from_utf8(one).expect("text");
        assert_eq!((status, errors.as_str()), (Some(0), ""));
        assert!(one.starts_with(&format!("network {subcommand} ")), "{one}");
        let (usage, _) = one.split_once("\n\n").expect("notes");
        assert!(all.contains(usage), "{usage}");
    }
}

#[test]
fn help_of_pairs_is_printed_with_status_0() {
    let [(_, all, _), (status, one, errors)] = [&["--help"][..], &["pairs", "--help"]].map(|help| network(help, b""));
    let [all, one] = [all, one].map(|help| String::from_utf8(help).expect("text"));
    assert_eq!((status, errors.as_str()), (Some(0), ""));
    assert!(one.starts_with("network pairs "), "{one}");
    let (usage, _) = one.split_once("\n\n").expect("notes");
    assert!(all.contains(usage), "{usage}");
}

#[test]
fn arguments_that_mean_nothing_are_errors() {
    let bad: [&[&str]; 28] = [
        &[],
        &["sheets"],
        &["-h"],
        &["--help", "x"],
        &["sheet", "a.net", "b.net"],
        &["text", "a", "b"],
        &["list", "a.net", "b.net"],
        &["picture", "a.net", "b.net"],
        &["fit", "--core", "x"],
        &["import", "--core"],
        &["import", "--core", "a", "--core", "b"],
        &["import", "--core=a", "x", "y"],
        &["report", "--json=yes"],
        &["report", "--jsn"],
        &["list", "-j"],
        &["overlap", "1", "2"],
        &["overlap", "a.net", "1", "2", "3"],
        &["overlap", "a.net", "1", "-2"],
        &["overlap", "--ties", "a.net", "1", "2"],
        &["thickness"],
        &["thickness", "a.net", "1"],
        &["thickness", "a.net", "1", "2", "3"],
        &["thickness", "a.net", "1", "-2"],
        &["thickness", "--json=yes", "a.net", "1", "2"],
        &["append"],
        &["append", "a.net", "1", "2"],
        &["append", "a.net", "1", "2", "3", "4", "5"],
        &["dot", "--ties", "--json"],
    ];
    for arguments in bad {
        let (status, printed, errors) = network(arguments, TRIANGLE.as_bytes());
        assert_eq!((status, printed.len()), (Some(1), 0), "{arguments:?}");
        assert!(errors.starts_with("network"), "{errors}");
    }
}

#[test]
fn arguments_of_pairs_that_mean_nothing_are_errors() {
    let bad: [&[&str]; 6] = [
        &["pairs"],
        &["pairs", "a.net"],
        &["pairs", "--json", "0"],
        &["pairs", "a.net", "0", "1"],
        &["pairs", "a.net", "-1"],
        &["pairs", "--ties", "a.net", "0"],
    ];
    for arguments in bad {
        let (status, printed, errors) = network(arguments, TRIANGLE.as_bytes());
        assert_eq!((status, printed.len()), (Some(1), 0), "{arguments:?}");
        assert!(errors.starts_with("network"), "{errors}");
    }
}

#[test]
fn standard_input_is_a_dash_or_no_file_and_two_dashes_end_the_options() {
    for arguments in [&["sheet"][..], &["sheet", "-"], &["sheet", "--", "-"]] {
        assert_eq!(network(arguments, TRIANGLE.as_bytes()), (Some(0), CASE_A.to_vec(), String::new()));
    }
    let (status, _, errors) = network(&["sheet", "--", "--help"], b"");
    assert_eq!(status, Some(1));
    assert!(errors.starts_with("--help: "), "{errors}");
}

#[test]
fn text_becomes_a_sheet_and_text_again() {
    let sheet = network(&["sheet"], TRIANGLE.as_bytes());
    assert_eq!(sheet, (Some(0), CASE_A.to_vec(), String::new()));
    let text = network(&["text"], &CASE_A);
    let without_title = TRIANGLE.replace("# A triangle\n", "");
    assert_eq!(text, (Some(0), without_title.into_bytes(), String::new()));
}

#[test]
fn names_do_not_alter_a_sheet() {
    let named = TRIANGLE.replace("nodes 3\n", "nodes 3\nnode 1 hall-A\n").replace("1-2:2", "1-2:2 name old wire");
    assert_eq!(network(&["sheet"], named.as_bytes()), (Some(0), CASE_A.to_vec(), String::new()));
}

#[test]
fn trunk_numbers_become_bytes_and_text_again() {
    let text = "nodes 2\nlink 0-1:4\nlink 0-1:4 trunk 263\nlink 0-1:4\ntree share 4 links 0\n";
    let sheet = vec![2, 0, 3, 0, 1, 7, 0, 0, 1, 0, 4, 0, 0, 0, 8, 7, 1, 0, 4, 0, 0, 0, 1];
    assert_eq!(network(&["sheet"], text.as_bytes()), (Some(0), sheet.clone(), String::new()));
    assert_eq!(network(&["text"], &sheet), (Some(0), text.as_bytes().to_vec(), String::new()));
}

#[test]
fn a_missing_file_is_an_error() {
    let takes_more = ["append", "overlap", "thickness"];
    for subcommand in SUBCOMMANDS.iter().filter(|subcommand| !takes_more.contains(subcommand)) {
        let (status, printed, errors) = network(&[subcommand, "missing.net"], b"");
        assert_eq!((status, printed.len()), (Some(1), 0));
        assert!(errors.starts_with("missing.net: "), "{errors}");
    }
}

#[test]
fn a_file_of_another_kind_is_recognised() {
    let cables = b"from,to,capacity\na,b,1\n";
    let text = "this is a network as text: `network sheet` turns it into a link sheet\n";
    let list = "this is a cable list: `network import` turns it into a network as text\n";
    let sheet = "this is by its bytes a link sheet: `network text` turns it into a network as text\n";
    let export = "this is a network as text: `network export` turns it into a cable list\n";
    let utf_16 = "this is text in UTF-16: save it as UTF-8\n";
    let wide: Vec<u8> = [0xFF, 0xFE].into_iter().chain("nodes 3\n".bytes().flat_map(|byte| [byte, 0])).collect();
    let cases: [(&str, &[u8], &str); 12] = [
        ("text", TRIANGLE.as_bytes(), text),
        ("text", cables, list),
        ("sheet", &CASE_A, sheet),
        ("sheet", cables, list),
        ("report", &CASE_A, sheet),
        ("list", &CASE_A, sheet),
        ("picture", cables, list),
        ("fit", &CASE_A, sheet),
        ("fit", cables, list),
        ("import", &CASE_A, sheet),
        ("import", TRIANGLE.as_bytes(), export),
        ("sheet", &wide, utf_16),
    ];
    for (subcommand, input, message) in cases {
        let expected = (Some(1), vec![], format!("standard input: {message}"));
        assert_eq!(network(&[subcommand], input), expected, "{subcommand}");
    }
}

#[test]
fn a_sheet_that_will_be_refused_is_written_with_a_note() {
    let text = "nodes 3\nlink 0-1:1\nlink 0-1:1\ntree share 1 links 0 1\n";
    let sheet = vec![3, 0, 2, 0, 1, 7, 0, 0, 1, 0, 1, 0, 0, 0, 0, 1, 0, 0, 0, 3];
    let note = "standard input:4: the monitor refuses this network, number 15: the links of tree 0 do not join node 2 to node 0; \
                the whole network falls apart: no links join node 2 to it\n";
    assert_eq!(network(&["sheet"], text.as_bytes()), (Some(3), sheet, note.to_string()));
}

#[test]
fn a_refused_network_has_no_list_and_no_picture() {
    let text = b"nodes 2\nlink 0-1:1\nlink 1-1:1\ntree share 1 links 0 1\ntree share 1 links\n";
    let errors = "standard input:3: the monitor refuses this network, number 10: link 1 has node 1 at both ends\n\
                  standard input:4: the monitor refuses this network, number 14: tree 0 names 2 of the links, and a tree of 2 nodes \
                  has 1\n\
                  standard input:5: the monitor refuses this network, number 14: tree 1 names 0 of the links, and a tree of 2 nodes \
                  has 1\n";
    for subcommand in ["list", "picture", "dot"] {
        assert_eq!(network(&[subcommand], text), (Some(3), vec![], errors.to_string()));
    }
}

#[test]
fn a_refused_sheet_has_no_text() {
    let (map_16, cut_off) = ([&CASE_A[..14], &[16]].concat(), [&CASE_A[..14], &[8, 5]].concat());
    let refusals: [(&[u8], &str); 6] = [
        (&CASE_A[..4], "number 3, at the header: the sheet has fewer than 5 bytes"),
        (&CASE_A[..14], "number 7, at link 1: no map byte is left for a link"),
        (&map_16, "number 8, at link 1: a map byte exceeds 15, or link 0's map byte is neither 7 nor 15"),
        (&cut_off, "number 9, at link 1: the sheet ends before the last byte of a field whose bit stands"),
        (&CASE_A[..34], "number 12, at tree 0: the sheet ends inside or before a tree record"),
        (&[&CASE_A[..], &[0]].concat(), "number 16, at the end: bytes follow the last tree"),
    ];
    for (sheet, words) in refusals {
        let expected = format!("standard input: the sheet is refused, {words}\n");
        assert_eq!(network(&["text"], sheet), (Some(3), vec![], expected));
    }
}

const TRIANGLE_MEANING: &str =
    "The cut severs node 1 from node 0. It crosses links 0 (0-1:3) and 1 (1-2:2), which weigh 5 together; link 0 of tree 0 names it. \
     No cut of the whole network weighs less.\n\
     No other cut of the whole network weighs 5.\n\
     A new cable makes this cut heavier only if it runs between the severed node and one of the 2 other nodes. Then the weakest cut of \
     the whole network weighs more than 5.\n";

#[test]
fn a_report_has_title_lines_and_meaning() {
    let lines = "answer 2 5 5 0 0 - 1\nside 1\n";
    let printed = format!("A triangle (standard input)\n{lines}{TRIANGLE_MEANING}");
    assert_eq!(network(&["report"], TRIANGLE.as_bytes()), (Some(0), printed.into_bytes(), String::new()));
    let printed = format!("A triangle (triangle.net)\n{lines}{TRIANGLE_MEANING}");
    let program = "echo answer 2 5 5 0 0 - 1; echo side 1";
    assert_eq!(report("triangle.net", TRIANGLE, program), (Some(0), printed, String::new()));
}

/// `tools/build report` builds the program.
#[test]
fn the_report_program_and_the_entry_report_the_same() {
    let program = Path::new(env!("CARGO_MANIFEST_DIR")).join("../target/bin/report");
    let mut compared = 0;
    for entry in std::fs::read_dir(example("")).expect("examples") {
        let file = entry.expect("a file").path().to_string_lossy().into_owned();
        if file.ends_with(".net") {
            let by_entry = network(&["report", &file], b"");
            assert_eq!(by_entry, network(&["report", "--program", &program.to_string_lossy(), &file], b""));
            let refused = file.contains("/refused-");
            assert_eq!(by_entry.0, Some(if refused { 3 } else { 0 }), "{file}: {}", by_entry.2);
            compared += 1;
        }
    }
    assert!(compared >= 24);
}

#[test]
fn a_report_as_json_has_a_line_for_each_file() {
    let (status, printed, errors) = network(&["report", "--json", "-", &example("c-ring.net")], TRIANGLE.as_bytes());
    assert_eq!((status, errors.as_str()), (Some(0), ""));
    let printed = String::from_utf8(printed).expect("text");
    let lines: Vec<&str> = printed.lines().collect();
    let start = r#"{"file": "standard input", "title": "A triangle", "verdict": 2, "weight": 5, "floor": 5, "tree": 0, "first_link": 0, "second_link": null, "none_lighter": true, "severed": [{"node": 1, "name": null}], "others": "#;
    assert!(lines[0].starts_with(start), "{}", lines[0]);
    assert!(lines[1].contains(r#""other_cuts_as_light": 5, "list_complete": true, "one_cable_crosses_all": [], "#));
    assert_eq!(lines.len(), 2);
    let refused = b"nodes 2\nlink 0-1:1\n";
    let expected = r#"{"file": "standard input", "title": null, "refused": 6, "mistakes": [{"line": 2, "number": 6, "why": "there is no tree, and the monitor needs one: `network fit` chooses trees"}]}"#;
    assert_eq!(network(&["report", "--json"], refused), (Some(3), format!("{expected}\n").into_bytes(), String::new()));
}

#[test]
fn a_refusal_is_explained() {
    let text = "nodes 2\nlink 0-1:1\nlink 0-1:1\ntree share 1 links 0 1\ntree share 1 links\n";
    let named = "refused.net\nrefused 14\nLine 4: tree 0 names 2 of the links, and a tree of 2 nodes has 1.\n\
                 Line 5: tree 1 names 0 of the links, and a tree of 2 nodes has 1.\n";
    assert_eq!(report("refused.net", text, "echo refused 14"), (Some(3), named.to_string(), String::new()));
}

#[test]
fn a_program_that_prints_no_report_is_an_error() {
    let wrong = [
        ("layout.net", "echo answer 2", "printed \"answer 2\\n\": these are not the lines of a report\n"),
        ("weight.net", "echo answer 2 6 6 0 0 - 1; echo side 1", "the links that cross the side have another weight\n"),
        ("refusal.net", "echo refused 12", "the sheet must not be refused, number 12\n"),
        ("status.net", "echo refused 4; exit 3", "ended with exit status: 3\n"),
        ("other.net", "echo answer 2 6 6 0 2 - 1; echo side 2", "the trees that count give another floor\n"),
    ];
    for (name, commands, error) in wrong {
        let text = TRIANGLE.replace("share 2", if name == "other.net" { "share 1" } else { "share 2" });
        let (status, printed, errors) = report(name, &text, commands);
        assert_eq!((status, printed.as_str()), (Some(1), ""), "{name}");
        assert!(errors.starts_with(name) && errors.ends_with(error), "{errors}");
    }
    let (status, _, errors) = network(&["report", "--program", "./no-such-program"], TRIANGLE.as_bytes());
    assert_eq!(status, Some(1));
    assert!(errors.starts_with("standard input: ./no-such-program: "), "{errors}");
}

#[test]
fn another_refusal_than_the_networks_and_an_answer_are_an_error() {
    let text = "nodes 2\nlink 1-1:4\ntree share 1 links 0\n";
    for (name, commands) in
        [("number.net", "echo refused 12"), ("answered.net", "echo answer 1 4 3 0 0 - 1; echo side 1")]
    {
        let (status, printed, errors) = report(name, text, commands);
        assert_eq!((status, printed.as_str()), (Some(1), ""), "{name}");
        assert!(errors.starts_with(name) && errors.ends_with(": the sheet has to be refused, number 10\n"), "{errors}");
    }
}

#[test]
fn a_fault_in_one_file_leaves_the_others_their_reports() {
    let folder = Path::new(env!("CARGO_TARGET_TMPDIR"));
    std::fs::write(folder.join("faulty.net"), "nodes\n").expect("a file for the network");
    std::fs::write(folder.join("sound.net"), "nodes 1\n").expect("a file for the network");
    let (status, printed, errors) = network(&["report", "faulty.net", "sound.net"], b"");
    assert_eq!(status, Some(1));
    assert_eq!(errors, "faulty.net:1: nodes: expected a node count behind 'nodes'\n");
    let expected = "\nsound.net\nrefused 4\nLine 1: the node count is 1, and the monitor takes 2 to 256.\n";
    assert_eq!(String::from_utf8(printed).expect("text"), expected);
}
