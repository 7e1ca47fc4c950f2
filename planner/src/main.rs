//! The planner's command: from a cable list to the trench. docs/NETWORKS.md and docs/REPORT.md describe it.

mod arguments;
mod commands;

use arguments::{Arguments, Flag};
use commands::{print, settled, Done, Outcome};
use std::ffi::OsString;
use std::ops::RangeInclusive;
use std::process::ExitCode;

const FAILED: u8 = 1;
const REFUSED: u8 = 3;
const MOST_FILES: usize = usize::MAX;

struct Subcommand {
    name: &'static str,
    /// The operands as the usage shows them, and how many there may be.
    operands: &'static str,
    count: RangeInclusive<usize>,
    flags: &'static [Flag],
    about: &'static str,
    run: fn(&Arguments) -> Done,
}

const JSON: Flag = Flag { name: "--json", value: None };
const CORE: Flag = Flag { name: "--core", value: Some("SWITCH") };
const PROGRAM: Flag = Flag { name: "--program", value: Some("PROGRAM") };
const TIES: Flag = Flag { name: "--ties", value: None };

const SUBCOMMANDS: [Subcommand; 13] = [
    Subcommand {
        name: "import",
        operands: "[CABLES]",
        count: 0..=1,
        flags: &[CORE],
        about: "turns a cable list (CSV) into a network as text; the core switch is the first of the list or SWITCH",
        run: commands::import,
    },
    Subcommand {
        name: "fit",
        operands: "[FILE]",
        count: 0..=1,
        flags: &[],
        about: "chooses trees and shares for a network, in place of those that it has",
        run: commands::fit,
    },
    Subcommand {
        name: "report",
        operands: "[FILE...]",
        count: 0..=MOST_FILES,
        flags: &[JSON, PROGRAM],
        about:
            "says what the weakest cut is and where a new cable has to run; PROGRAM: the lines of that report program",
        run: commands::report,
    },
    Subcommand {
        name: "list",
        operands: "[FILE]",
        count: 0..=1,
        flags: &[JSON],
        about: "lists every cut as light as the reported one, smallest side first",
        run: commands::list,
    },
    Subcommand {
        name: "overlap",
        operands: "FILE I J",
        count: 3..=3,
        flags: &[JSON],
        about: "shows the corners of cuts I and J of the list, the weights between them, and which of the two a cable crosses",
        run: commands::overlap,
    },
    Subcommand {
        name: "thickness",
        operands: "FILE LINK WANTED",
        count: 3..=3,
        flags: &[JSON],
        about: "says how much a link, by number or name, has to weigh for the reported weight to be WANTED or more",
        run: commands::thickness,
    },
    Subcommand {
        name: "pairs",
        operands: "FILE TREE",
        count: 2..=2,
        flags: &[JSON],
        about: "writes all pairs of a tree's links, both cables and what their cut weighs, as CSV; TREE is its number, from 0",
        run: commands::pairs,
    },
    Subcommand {
        name: "picture",
        operands: "[FILE]",
        count: 0..=1,
        flags: &[TIES],
        about: "draws the network with its weakest cut, as SVG; with --ties also all other cuts as light",
        run: commands::picture,
    },
    Subcommand {
        name: "dot",
        operands: "[FILE]",
        count: 0..=1,
        flags: &[TIES],
        about: "writes the same picture for Graphviz",
        run: commands::dot,
    },
    Subcommand {
        name: "append",
        operands: "FILE FROM TO CAPACITY [NAME]",
        count: 4..=5,
        flags: &[],
        about: "adds a cable between two nodes of a network, by name or number, so that its trees stay right",
        run: commands::append,
    },
    Subcommand {
        name: "export",
        operands: "[FILE]",
        count: 0..=1,
        flags: &[],
        about: "turns a network as text into a cable list (CSV), without trees and trunk numbers",
        run: commands::export,
    },
    Subcommand {
        name: "sheet",
        operands: "[FILE]",
        count: 0..=1,
        flags: &[],
        about: "turns a network as text into a link sheet, which units read",
        run: commands::sheet,
    },
    Subcommand {
        name: "text",
        operands: "[SHEET]",
        count: 0..=1,
        flags: &[],
        about: "turns a link sheet into a network as text",
        run: commands::text,
    },
];

const NOTES: &str = "
FILE is a network as text. Without one, or with -, standard input is read. The result goes to standard output.
The status is 0, 3 if the monitor refuses the network, and 1 after any other error.
docs/NETWORKS.md describes the files, docs/REPORT.md what is printed.
";

impl Subcommand {
    fn usage(&self) -> String {
        let flag = |flag: &Flag| match flag.value {
            None => format!(" [{}]", flag.name),
            Some(value) => format!(" [{} {value}]", flag.name),
        };
        let flags: String = self.flags.iter().map(flag).collect();
        format!("network {}{flags} {}\n    {}\n", self.name, self.operands, self.about)
    }

    fn run(&self, given: &[OsString]) -> Done {
        let arguments = Arguments::parse(given, self.flags, &self.count);
        let arguments =
            arguments.map_err(|error| format!("network {}: {error}\n{}", self.name, self.usage().trim_end()))?;
        if arguments.help {
            print(format!("{}{NOTES}", self.usage()).as_bytes());
            return Ok(Outcome::Accepted);
        }
        (self.run)(&arguments)
    }
}

fn main() -> ExitCode {
    let given: Vec<OsString> = std::env::args_os().skip(1).collect();
    match settled(run(&given)) {
        Outcome::Accepted => ExitCode::SUCCESS,
        Outcome::Refused => ExitCode::from(REFUSED),
        Outcome::Failed => ExitCode::from(FAILED),
    }
}

fn run(given: &[OsString]) -> Done {
    let Some((name, given)) = given.split_first() else {
        return Err("network: a subcommand is missing; `network --help` lists them".to_string());
    };
    if name == "--help" && given.is_empty() {
        let usages: String = SUBCOMMANDS.iter().map(Subcommand::usage).collect();
        print(format!("{usages}{NOTES}").as_bytes());
        return Ok(Outcome::Accepted);
    }
    match SUBCOMMANDS.iter().find(|subcommand| name == subcommand.name) {
        Some(subcommand) => subcommand.run(given),
        None => Err(format!("network: unknown subcommand '{}'; `network --help` lists them", name.to_string_lossy())),
    }
}
