//! The arguments of a subcommand: options, each at most once, and operands. `--` ends the options; `-` is an operand.

use planner::input::Source;
use std::ffi::{OsStr, OsString};
use std::ops::RangeInclusive;

/// An option, as it is written, and what its value is called, if it has one.
pub struct Flag {
    pub name: &'static str,
    pub value: Option<&'static str>,
}

/// What was given for a subcommand.
#[derive(Debug, Default)]
pub struct Arguments {
    options: Vec<(&'static str, OsString)>,
    operands: Vec<OsString>,
    pub help: bool,
}

impl Arguments {
    /// The error says which argument is none of the subcommand's.
    pub fn parse(given: &[OsString], flags: &[Flag], count: &RangeInclusive<usize>) -> Result<Arguments, String> {
        let mut arguments = Arguments::default();
        let mut given = given.iter();
        while let Some(argument) = given.next() {
            match argument.to_str() {
                Some("--") => arguments.operands.extend(given.by_ref().cloned()),
                Some("--help") => arguments.help = true,
                Some(option) if option.starts_with('-') && option != "-" => {
                    arguments.add_option(option, &mut given, flags)?;
                }
                _ => arguments.operands.push(argument.clone()),
            }
        }
        match arguments.help || count.contains(&arguments.operands.len()) {
            true => Ok(arguments),
            false if arguments.operands.len() < *count.start() => Err("an argument is missing".to_string()),
            false => Err(format!("one argument too many: '{}'", arguments.operands[*count.end()].to_string_lossy())),
        }
    }

    fn add_option<'a>(
        &mut self,
        option: &str,
        given: &mut impl Iterator<Item = &'a OsString>,
        flags: &[Flag],
    ) -> Result<(), String> {
        let (name, attached) = match option.split_once('=') {
            Some((name, value)) => (name, Some(OsString::from(value))),
            None => (option, None),
        };
        let flag = flags.iter().find(|flag| flag.name == name).ok_or_else(|| format!("unknown option '{option}'"))?;
        if self.has(flag.name) {
            return Err(format!("the option '{name}' is given twice"));
        }
        let value = match (flag.value, attached) {
            (None, None) => OsString::new(),
            (None, Some(_)) => return Err(format!("the option '{name}' has no value")),
            (Some(_), Some(value)) => value,
            (Some(value), None) => {
                given.next().cloned().ok_or_else(|| format!("the option '{name}' needs a value, {value}"))?
            }
        };
        self.options.push((flag.name, value));
        Ok(())
    }

    pub fn has(&self, option: &str) -> bool {
        self.value(option).is_some()
    }

    pub fn value(&self, option: &str) -> Option<&OsStr> {
        self.options.iter().find(|(name, _)| *name == option).map(|(_, value)| &**value)
    }

    pub fn operands(&self) -> &[OsString] {
        &self.operands
    }

    /// The file that is the first operand; standard input without one.
    pub fn source(&self) -> Source {
        Source::new(self.operands.first().map_or(OsStr::new("-"), |file| file))
    }
}
