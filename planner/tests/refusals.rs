//! The refusal numbers, their constants and their words: the table of docs/REFUSALS.md, include/wcut.h, the enum of the proved code
//! and what the command `network` prints agree.

mod command;

use command::network;
use planner::mistakes;
use reference::documented::{self, CASE_A};
use reference::sheet;

const HEADER: &str = include_str!("../../include/wcut.h");
const CODE: &str = include_str!("../../crates/format/src/refusals.rt");
const PAGE: &str = include_str!("../../docs/REFUSALS.md");

/// No sheet leads to these numbers: eight are of what an entry is given beside the sheet, and every weight is allowed.
const WITHOUT_A_SHEET: [u32; 9] = [1, 2, 11, 18, 19, 20, 21, 23, 24];
/// A number above all refusals.
const ABOVE_ALL: u32 = 100;

#[derive(Debug, PartialEq, Eq)]
struct Refusal {
    number: u32,
    constant: String,
    case: String,
}

/// A row of the table: the refusal, and what is said of networks as text. *n*, *m* and other letters stand for a network's numbers.
struct Row {
    refusal: Refusal,
    of_a_text: Vec<String>,
}

fn table() -> Vec<Row> {
    let titles = "| Number | Constant | The case | What `network` says of a text | Line named |";
    let mut lines = PAGE.lines().skip_while(|line| *line != titles).skip(2);
    lines.by_ref().take_while(|line| line.starts_with('|')).map(row).collect()
}

fn row(line: &str) -> Row {
    let cells: Vec<&str> = line.split('|').map(str::trim).collect();
    let ["", number, constant, case, of_a_text, line_named, ""] = cells[..] else {
        panic!("not a row of five cells: {line}");
    };
    assert_eq!(of_a_text == "-", line_named == "-", "{line}");
    let constant = constant.strip_prefix('`').and_then(|rest| rest.strip_suffix('`')).expect(line).to_string();
    let of_a_text = match of_a_text {
        "-" => vec![],
        messages => messages.split("; or: ").map(str::to_string).collect(),
    };
    Row { refusal: Refusal { number: number.parse().expect(line), constant, case: case.to_string() }, of_a_text }
}

/// The constants behind WCUT_ACCEPTED, up to the first blank line, each with its comment.
fn header() -> Vec<Refusal> {
    let lines = HEADER.lines().skip_while(|line| *line != "#define WCUT_ACCEPTED 0").skip(1);
    lines.take_while(|line| !line.is_empty()).map(defined).collect()
}

fn defined(line: &str) -> Refusal {
    let (code, comment) = line.split_once(" /* ").expect(line);
    let words: Vec<&str> = code.split_whitespace().collect();
    let ["#define", constant, number] = words[..] else {
        panic!("not a constant: {line}");
    };
    let case = comment.strip_suffix(" */").expect(line).to_string();
    Refusal { number: number.parse().expect(line), constant: constant.to_string(), case }
}

/// The variants of the code's enum, each with the comment above it. There is none for 11, which is never given.
fn code() -> Vec<Refusal> {
    let (_, rest) = CODE.split_once("pub enum Refusal {\n").expect("an enum of the refusals");
    let (variants, _) = rest.split_once("\n}").expect("the end of the enum");
    variants.split("\n\n").map(commented).collect()
}

fn commented(lines: &str) -> Refusal {
    let (comment, variant) = lines.trim().split_once('\n').expect(lines);
    let words = comment.strip_prefix("// ").and_then(|rest| rest.strip_suffix('.')).expect(lines);
    let (first, rest) = words.split_at(1);
    let (name, number) = variant.trim().split_once(" = ").expect(lines);
    let number = number.strip_suffix(',').expect(lines).parse().expect(lines);
    Refusal { number, constant: constant(name), case: first.to_lowercase() + rest }
}

/// The name in C of a variant: `ShortSide` is `WCUT_SHORT_SIDE`.
fn constant(variant: &str) -> String {
    variant.chars().fold("WCUT".to_string(), |name, letter| match letter {
        'A'..='Z' => format!("{name}_{letter}"),
        _ => format!("{name}{}", letter.to_ascii_uppercase()),
    })
}

/// A sheet for each of the other numbers.
fn refused_sheets() -> Vec<(u32, Vec<u8>)> {
    let with = |place: usize, byte: u8| {
        let mut sheet = CASE_A.to_vec();
        sheet[place] = byte;
        sheet
    };
    let parallel = documented::network(3, &[(0, 1, 1), (1, 0, 1)], &[(1, &[0, 1])]);
    vec![
        (3, CASE_A[..4].to_vec()),
        (4, with(0, 1)),
        (5, with(2, 1)),
        (6, with(4, 0)),
        (7, CASE_A[..14].to_vec()),
        (8, with(5, 16)),
        (9, CASE_A[..13].to_vec()),
        (10, with(8, 0)),
        (12, CASE_A[..34].to_vec()),
        (13, with(34, 0x0D)),
        (14, with(34, 0x07)),
        (15, sheet::write(&parallel)),
        (16, [&CASE_A[..], &[0]].concat()),
    ]
}

/// For each message of the table on a text, in its order: a text, and what the letters of the message stand for.
fn refused_texts() -> Vec<(String, Vec<(&'static str, u32)>)> {
    let many = |record: &str, count| format!("{record}\n").repeat(count);
    let (link, tree) = ("link 0-1:1", "tree share 1 links 0");
    let text = |records: &str| format!("nodes 3\nlink 0-1:1\n{records}\n");
    vec![
        ("nodes 257\n".to_string(), vec![("n", 257)]),
        (text("tree share 1 links 0 "), vec![("m", 1), ("n", 3), ("n − 1", 2)]),
        (format!("nodes 2\n{}{tree}\n", many(link, 2049)), vec![("m", 2049)]),
        (text("link 1-2:1"), vec![]),
        (format!("nodes 2\n{link}\n{}", many(tree, 33)), vec![("t", 33)]),
        (text("link 1-7:1\nlink 1-2:1\ntree share 1 links 0 2"), vec![("k", 1), ("e", 7), ("n − 1", 2)]),
        (text("link 2-2:1\nlink 1-2:1\ntree share 1 links 0 2"), vec![("k", 1), ("e", 2)]),
        (text("link 1-2:1\ntree share 1 links 0"), vec![("i", 0), ("c", 1), ("n", 3), ("n − 1", 2)]),
        (text("link 1-0:1\nlink 1-2:1\ntree share 1 links 0 1"), vec![("i", 0), ("v", 2)]),
        (text("link 1-0:1\ntree share 1 links 0 1"), vec![("i", 0), ("v", 2), ("w", 2)]),
    ]
}

/// The message of the table with a network's numbers.
fn filled(message: &str, numbers: &[(&str, u32)]) -> String {
    numbers.iter().fold(message.to_string(), |filled, (letter, number)| {
        let letter = format!("*{letter}*");
        assert!(filled.contains(&letter), "no {letter} in: {message}");
        filled.replace(&letter, &number.to_string())
    })
}

#[test]
fn the_table_has_each_number_once() {
    let numbers: Vec<u32> = table().iter().map(|row| row.refusal.number).collect();
    let all: Vec<u32> = (1..ABOVE_ALL).filter(|&number| mistakes::meaning(number).is_some()).collect();
    assert_eq!(numbers, all);
}

#[test]
fn the_header_has_the_tables_constants_and_words() {
    let table: Vec<Refusal> = table().into_iter().map(|row| row.refusal).collect();
    assert_eq!(header(), table);
}

#[test]
fn the_code_has_the_tables_constants_and_words() {
    let table: Vec<Refusal> =
        table().into_iter().map(|row| row.refusal).filter(|refusal| refusal.number != 11).collect();
    assert_eq!(code(), table);
}

#[test]
fn the_command_has_the_tables_words_for_each_number() {
    for Row { refusal: Refusal { number, case, .. }, .. } in table() {
        assert_eq!(mistakes::meaning(number), Some(&*case), "number {number}");
        let Some((_, sheet)) = refused_sheets().into_iter().find(|(refused, _)| *refused == number) else {
            assert!(WITHOUT_A_SHEET.contains(&number), "no sheet for number {number}");
            continue;
        };
        let (status, printed, said) = network(&["text"], &sheet);
        assert_eq!((status, printed.len()), (Some(3), 0), "number {number}");
        let start = format!("standard input: the sheet is refused, number {number}, at ");
        let (_, words) = said.strip_prefix(&start).and_then(|rest| rest.split_once(": ")).expect(&said);
        assert_eq!(words, format!("{case}\n"));
    }
}

#[test]
fn the_command_has_the_tables_words_for_a_refused_text() {
    let mut messages = vec![];
    for Row { refusal, of_a_text } in table() {
        messages.extend(of_a_text.into_iter().map(|message| (refusal.number, message)));
    }
    let texts = refused_texts();
    assert_eq!(messages.len(), texts.len(), "{messages:?}");
    for ((number, message), (text, numbers)) in messages.iter().zip(&texts) {
        let (status, _, said) = network(&["sheet"], text.as_bytes());
        assert_eq!(status, Some(3), "{said}");
        let (first, _) = said.split_once('\n').expect(&said);
        let (_, words) = first.split_once(": the monitor refuses this network, ").expect(first);
        assert_eq!(words, format!("number {number}: {}", filled(message, numbers)));
    }
}
