//! What the subcommands do.

use crate::arguments::Arguments;
use planner::findings::{self, Findings};
use planner::input::{Kind, Source};
use planner::json::Json;
use planner::mistakes::{self, Mistake};
use planner::picture::{self, Drawing};
use planner::text::{self, Parsed};
use planner::{cables, edit, fit, names, unit};
use reference::network::Link;
use reference::sheet::{self, Refusal, MOST_LINKS};
use std::ffi::{OsStr, OsString};
use std::io::{self, ErrorKind, Write};
use std::process;

/// How a subcommand ended; the worst is the last.
#[derive(Clone, Copy, Debug, PartialEq, Eq, PartialOrd, Ord)]
pub enum Outcome {
    Accepted,
    /// The monitor refuses the network, and why was said.
    Refused,
    /// An error, and it was said.
    Failed,
}

/// The error is what is wrong and was not said yet, a line for each mistake.
pub type Done = Result<Outcome, String>;

const NOT_PRINTED: i32 = 1;

/// Prints to standard output. If that fails, the command ends, without a message if nobody reads any more.
pub fn print(bytes: &[u8]) {
    let mut output = io::stdout().lock();
    if let Err(error) = output.write_all(bytes).and_then(|()| output.flush()) {
        if error.kind() != ErrorKind::BrokenPipe {
            complain(&format!("standard output: {error}"));
        }
        process::exit(NOT_PRINTED);
    }
}

/// Prints to standard error, as far as that can be had.
fn complain(message: &str) {
    let _ = writeln!(io::stderr(), "{message}");
}

/// How a subcommand ended, with what is wrong said.
pub fn settled(done: Done) -> Outcome {
    done.unwrap_or_else(|error| {
        complain(&error);
        Outcome::Failed
    })
}

/// The monitor refuses the network of a text for these mistakes.
fn refused(source: &Source, mistakes: &[(usize, Mistake)]) -> Outcome {
    mistakes.iter().for_each(|(line, mistake)| complain(&format!("{}:{line}: {mistake}", source.name())));
    Outcome::Refused
}

/// An argument as text.
fn argument(given: &OsStr) -> Result<&str, String> {
    given.to_str().ok_or_else(|| format!("'{}': expected text in UTF-8", given.to_string_lossy()))
}

/// Writes the text of a cable list, which has the list's file as its title.
pub fn import(arguments: &Arguments) -> Done {
    let source = arguments.source();
    let cables = source.cables()?;
    let core = arguments.value("--core").map(argument).transpose()?;
    let core =
        core.map(|core| names::tidy(core).map_err(|expected| format!("--core: expected {expected}"))).transpose()?;
    let (contents, names) = cables::network(&cables, core.as_deref())
        .ok_or_else(|| format!("{}: no cable ends at the core switch '{}'", source.name(), core.unwrap_or_default()))?;
    let title = source.file().map_or(String::new(), |file| format!("# {file}\n"));
    print((title + &text::write(&contents, &names)).as_bytes());
    Ok(Outcome::Accepted)
}

pub fn export(arguments: &Arguments) -> Done {
    let source = arguments.source();
    let (parsed, _) = source.text_without_trees()?;
    let mistakes = link_mistakes(&parsed);
    if !mistakes.is_empty() {
        return Ok(refused(&source, &mistakes));
    }
    let list = cables::write(&parsed.contents.network, &parsed.names).map_err(|bare| {
        format!("{}: no link ends at {}, and a cable list has no place for it", source.name(), parsed.names.node(bare))
    })?;
    print(list.as_bytes());
    Ok(Outcome::Accepted)
}

/// What the monitor refuses of a text that was read without trees, whichever trees it gets. Where it has too few links, it falls apart,
/// which is said otherwise.
fn link_mistakes(parsed: &Parsed) -> Vec<(usize, Mistake)> {
    let few_links = parsed.contents.network.links.len() <= MOST_LINKS;
    let left_out = |number: u32| number == mistakes::TREE_COUNT || number == mistakes::LINK_COUNT && few_links;
    parsed.mistakes().into_iter().filter(|(_, mistake)| !left_out(mistake.number)).collect()
}

pub fn fit(arguments: &Arguments) -> Done {
    let source = arguments.source();
    let (parsed, text) = source.text_without_trees()?;
    let (network, names) = (&parsed.contents.network, &parsed.names);
    let mistakes = link_mistakes(&parsed);
    if !mistakes.is_empty() {
        return Ok(refused(&source, &mistakes));
    }
    match fit::fit(network.nodes, &network.links) {
        Ok(trees) => {
            print(edit::with_trees(&text, &parsed, &trees).as_bytes());
            Ok(Outcome::Accepted)
        }
        Err(apart) => {
            let (node, core) = (names.node(apart.node), names.node(0));
            complain(&format!(
                "{}: the network falls apart: no links join {node} to {core}, so no tree fits",
                source.name()
            ));
            Ok(Outcome::Refused)
        }
    }
}

pub fn append(arguments: &Arguments) -> Done {
    let source = arguments.source();
    let operands = arguments.operands()[1..].iter().map(|operand| argument(operand));
    let operands: Vec<&str> = operands.collect::<Result<_, _>>()?;
    let (parsed, text) = source.text()?;
    let node = |word: &str| {
        let found = names::tidy(word).ok().and_then(|name| parsed.names.find_node(&name));
        found.ok_or_else(|| format!("{}: there is no node '{}'", source.name(), text::shortened(word)))
    };
    let (first, second) = (node(operands[0])?, node(operands[1])?);
    if first == second {
        return Err(format!("{}: a cable cannot have {} at both ends", source.name(), parsed.names.node(first)));
    }
    let weight = cables::capacity(operands[2])?;
    if parsed.contents.network.links.len() == MOST_LINKS {
        return Err(format!("{}: the network has {MOST_LINKS} links, and the monitor takes no more", source.name()));
    }
    let name = operands.get(3).map(|name| names::tidy(name)).transpose();
    let name = name.map_err(|expected| format!("expected {expected} of the cable"))?;
    print(edit::with_link(&text, &parsed, &Link { first, second, weight }, name.as_deref()).as_bytes());
    Ok(Outcome::Accepted)
}

/// Writes the sheet, also one that the monitor refuses.
pub fn sheet(arguments: &Arguments) -> Done {
    let source = arguments.source();
    let (parsed, _) = source.text()?;
    print(&sheet::write_contents(&parsed.contents));
    let mistakes = parsed.mistakes();
    match mistakes.is_empty() {
        true => Ok(Outcome::Accepted),
        false => Ok(refused(&source, &mistakes)),
    }
}

pub fn text(arguments: &Arguments) -> Done {
    let source = arguments.source();
    match sheet::read_contents(&source.read(Kind::Sheet)?) {
        Ok(contents) => {
            let names = names::Names::none(contents.network.nodes, contents.network.links.len());
            print(text::write(&contents, &names).as_bytes());
            Ok(Outcome::Accepted)
        }
        Err(Refusal { number, place }) => {
            let (place, meaning) = (mistakes::place_name(place), mistakes::meaning(number).unwrap_or_default());
            complain(&format!("{}: the sheet is refused, number {number}, at {place}: {meaning}", source.name()));
            Ok(Outcome::Refused)
        }
    }
}

/// Reports on every file, whether or not there was an error with one before.
pub fn report(arguments: &Arguments) -> Done {
    let standard_input = [OsString::from("-")];
    let files = if arguments.operands().is_empty() { &standard_input } else { arguments.operands() };
    let mut outcome = Outcome::Accepted;
    for (place, file) in files.iter().enumerate() {
        if place > 0 && !arguments.has("--json") {
            print(b"\n");
        }
        outcome = outcome.max(settled(report_on(&Source::new(file), arguments)));
    }
    Ok(outcome)
}

/// Prints the title of a network and its path as given, the report's lines for it, and what they mean.
fn report_on(source: &Source, arguments: &Arguments) -> Done {
    let (name, (parsed, _)) = (source.name(), source.text()?);
    let said = findings::find(&parsed, arguments.value("--program")).map_err(|error| format!("{name}: {error}"))?;
    let json = arguments.has("--json");
    let (outcome, lines, meaning, record) = match &said {
        Ok(findings) => {
            let meaning = findings.sentences().join("\n");
            (Outcome::Accepted, findings.lines(), meaning, json.then(|| findings.report_record(&name)))
        }
        Err(number) => {
            let mistakes = parsed.mistakes();
            let why = |(line, mistake): &(usize, Mistake)| format!("Line {line}: {}.", mistake.why);
            let meaning = mistakes.iter().map(why).collect::<Vec<_>>().join("\n");
            let record = json.then(|| findings::refusal(&name, &parsed, *number, &mistakes));
            (Outcome::Refused, unit::lines(&Err(*number)), meaning, record)
        }
    };
    let title = parsed.title.as_ref().map_or(name.clone(), |title| format!("{title} ({name})"));
    match record {
        Some(record) => print(format!("{record}\n").as_bytes()),
        None => print(format!("{title}\n{lines}{meaning}\n").as_bytes()),
    }
    Ok(outcome)
}

/// Does something with the findings for the network of the one file given; the error says why that cannot be.
fn with_findings(arguments: &Arguments, act: impl FnOnce(&str, &Findings) -> Result<(), String>) -> Done {
    let source = arguments.source();
    let (name, (parsed, _)) = (source.name(), source.text()?);
    let of_file = |error: String| format!("{name}: {error}");
    match findings::find(&parsed, None).map_err(of_file)? {
        Ok(findings) => act(&name, &findings).map(|()| Outcome::Accepted).map_err(of_file),
        Err(_) => Ok(refused(&source, &parsed.mistakes())),
    }
}

pub fn list(arguments: &Arguments) -> Done {
    with_findings(arguments, |name, findings| {
        match arguments.has("--json") {
            true => findings.list_record(name).for_each(|part| print(part.as_bytes())),
            false => findings.list_lines().for_each(|line| print(line.as_bytes())),
        }
        Ok(())
    })
}

pub fn overlap(arguments: &Arguments) -> Done {
    let cut = |operand: usize| number(arguments, operand, 1, "the number of a cut, as `network list` prints it");
    let (first, second) = (cut(1)?, cut(2)?);
    if first == second {
        return Err(format!("expected two different cuts, found cut {first} twice"));
    }
    with_findings(arguments, |name, findings| {
        let overlap = findings.overlap([first, second])?;
        print_one(arguments, || overlap.record(name), || overlap.text());
        Ok(())
    })
}

pub fn thickness(arguments: &Arguments) -> Done {
    let operands = arguments.operands();
    let (link, wanted) = (argument(&operands[1])?, argument(&operands[2])?);
    let wanted = text::number(wanted, "a wanted weight", u64::MAX)?;
    with_findings(arguments, |name, findings| {
        let figure = findings.figure(findings.link(link)?, wanted)?;
        let thickness = figure.thickness()?;
        match arguments.has("--json") {
            true => thickness.record(name).for_each(|part| print(part.as_bytes())),
            false => print(thickness.text().as_bytes()),
        }
        Ok(())
    })
}

pub fn pairs(arguments: &Arguments) -> Done {
    let tree = number(arguments, 1, 0, "the number of a tree, counted from 0")?;
    with_findings(arguments, |name, findings| {
        let pairs = findings.pairs(tree)?;
        print_one(arguments, || pairs.record(name), || pairs.csv());
        Ok(())
    })
}

/// An operand as a number in digits that is no less than the least; the error says what was expected.
fn number(arguments: &Arguments, operand: usize, least: usize, expected: &str) -> Result<usize, String> {
    let word = argument(&arguments.operands()[operand])?;
    let number = Some(word).filter(|digits| names::is_number(digits)).and_then(|digits| digits.parse().ok());
    number
        .filter(|&number| number >= least)
        .ok_or_else(|| format!("expected {expected}, found '{}'", text::shortened(word)))
}

/// Prints the record as a line of JSON if that was asked for, else the text.
fn print_one(arguments: &Arguments, record: impl FnOnce() -> Json, text: impl FnOnce() -> String) {
    match arguments.has("--json") {
        true => print(format!("{}\n", record()).as_bytes()),
        false => print(text().as_bytes()),
    }
}

pub fn picture(arguments: &Arguments) -> Done {
    draw(arguments, picture::svg)
}

pub fn dot(arguments: &Arguments) -> Done {
    draw(arguments, picture::dot)
}

fn draw(arguments: &Arguments, write: fn(&Drawing) -> String) -> Done {
    with_findings(arguments, |name, findings| {
        print(write(&findings.drawing(name, arguments.has("--ties"))).as_bytes());
        Ok(())
    })
}
