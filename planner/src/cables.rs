//! Cable lists: a header line, then a line for each cable with its two switches, its capacity and, if wanted, a name, parted by commas,
//! semicolons or tabs. docs/NETWORKS.md describes the form.

pub(crate) mod fields;
#[cfg(test)]
mod tests;

use crate::names::{self, Names};
use crate::text::{decode, number, shortened, Fault};
use fields::Records;
use reference::network::{Link, Network};
use reference::sheet::{Contents, MOST_LINKS, MOST_NODES, MOST_WEIGHT};
use std::collections::BTreeSet;

pub const HEADER: &str = "from,to,capacity,name";
/// What may part the fields; the header line shows which does.
const SEPARATORS: [char; 3] = [',', ';', '\t'];
const COLUMNS: [&str; 4] = ["from", "to", "capacity", "name"];
const NEEDED: usize = 3;

/// A cable between two switches.
#[derive(Clone, Debug, PartialEq, Eq)]
pub struct Cable {
    pub from: String,
    pub to: String,
    pub capacity: u64,
    pub name: Option<String>,
}

/// Whether a line is the header of a cable list.
pub fn is_header(line: &str) -> bool {
    let first = line.split(SEPARATORS).next().unwrap_or_default().trim().trim_matches('"');
    line.contains(SEPARATORS) && COLUMNS.contains(&&*first.to_lowercase())
}

/// The cables of a list, or all faults of the file, by their lines.
pub fn read(file: &[u8]) -> Result<Vec<Cable>, Vec<Fault>> {
    let text = decode(file).map_err(|fault| vec![fault])?;
    let header = text.lines().find(|line| !line.trim().is_empty()).unwrap_or_default();
    let separator = header.chars().find(|character| SEPARATORS.contains(character)).unwrap_or(',');
    let mut records = Records::new(text, separator);
    let columns = read_header(&mut records).map_err(|fault| vec![fault])?;
    let mut reader = Reader::default();
    for (line, record) in &mut records {
        let cable = match record {
            Ok(fields) => read_cable(&columns, &fields)
                .map_err(|wrong| wrong.into_iter().map(|message| Fault { line, message }).collect()),
            Err(fault) => Err(vec![fault]),
        };
        reader.add(line, cable);
    }
    if reader.lines == 0 {
        reader
            .faults
            .push(Fault { line: records.line(), message: "expected a cable behind the header line".to_string() });
    }
    match reader.faults.is_empty() {
        true => Ok(reader.cables),
        false => Err(reader.faults),
    }
}

/// Which column each field of a line belongs to.
fn read_header(records: &mut Records) -> Result<Vec<usize>, Fault> {
    let expected = format!("expected a header line such as {HEADER}");
    let Some((line, fields)) = records.next() else {
        return Err(Fault { line: 1, message: format!("{expected}, found an empty file") });
    };
    let mut columns = Vec::new();
    for field in fields? {
        let column = COLUMNS.iter().position(|column| *column == field.trim().to_lowercase());
        let Some(column) = column.filter(|column| !columns.contains(column)) else {
            let twice = if column.is_some() { " a second time" } else { "" };
            return Err(Fault { line, message: format!("{expected}, found '{}'{twice}", shortened(&field)) });
        };
        columns.push(column);
    }
    match (0..NEEDED).find(|column| !columns.contains(column)) {
        None => Ok(columns),
        Some(missing) => Err(Fault { line, message: format!("{expected}, found no '{}'", COLUMNS[missing]) }),
    }
}

/// The cable of a line, or what is wrong with each of its fields.
fn read_cable(columns: &[usize], fields: &[String]) -> Result<Cable, Vec<String>> {
    if fields.len() > columns.len() {
        let (expected, found) = (columns.len(), fields.len());
        return Err(vec![format!("expected {expected} fields as in the header line, found {found}")]);
    }
    let field = |wanted: usize| {
        let place = columns.iter().position(|&column| column == wanted);
        place.and_then(|place| fields.get(place)).map_or("", |field| field.trim())
    };
    let switch = |column: usize| {
        let expected = |expected| format!("expected {expected} of a switch in the column '{}'", COLUMNS[column]);
        names::tidy(field(column)).map_err(expected)
    };
    let ends = [switch(0), switch(1)];
    let same = match &ends {
        [Ok(from), Ok(to)] if from == to => {
            Err(format!("expected two different switches, found '{}' at both ends", shortened(from)))
        }
        _ => Ok(()),
    };
    let name = Some(field(3)).filter(|name| !name.is_empty()).map(names::tidy).transpose();
    let name = name.map_err(|expected| format!("expected {expected} in the column 'name'"));
    match (ends, same, capacity(field(2)), name) {
        ([Ok(from), Ok(to)], Ok(()), Ok(capacity), Ok(name)) => Ok(Cable { from, to, capacity, name }),
        ([from, to], same, capacity, name) => {
            let wrong = [from.err(), to.err(), same.err(), capacity.err(), name.err()];
            Err(wrong.into_iter().flatten().collect())
        }
    }
}

/// A capacity in digits; the error says what was expected.
pub fn capacity(field: &str) -> Result<u64, String> {
    number(field, "a capacity", MOST_WEIGHT)
}

/// The cables read so far, and the faults. Where there are more cables or switches than the monitor takes, that is said once.
#[derive(Default)]
struct Reader {
    lines: usize,
    cables: Vec<Cable>,
    switches: BTreeSet<String>,
    faults: Vec<Fault>,
}

impl Reader {
    fn add(&mut self, line: usize, cable: Result<Cable, Vec<Fault>>) {
        self.lines += 1;
        if self.lines == MOST_LINKS + 1 {
            let message = format!("expected at most {MOST_LINKS} cables, which the monitor takes, found one more");
            self.faults.push(Fault { line, message });
        }
        let cable = match cable {
            Ok(cable) => cable,
            Err(faults) => return self.faults.extend(faults),
        };
        let before = self.switches.len();
        self.switches.extend([cable.from.clone(), cable.to.clone()]);
        if before <= MOST_NODES && self.switches.len() > MOST_NODES {
            let message = format!("expected at most {MOST_NODES} switches, which the monitor takes, found one more");
            self.faults.push(Fault { line, message });
        }
        self.cables.push(cable);
    }
}

/// The network of a list, with the core switch as node 0 and the others in the order in which they are met; none if no cable ends at the
/// core. Without one given it is the first switch of the list. Where the switches are the numbers from 0 on and the core is 0, these are
/// the nodes' numbers, and no names.
pub fn network(cables: &[Cable], core: Option<&str>) -> Option<(Contents, Names)> {
    let mut switches: Vec<&str> = Vec::new();
    for end in cables.iter().flat_map(|cable| [&*cable.from, &*cable.to]) {
        if !switches.contains(&end) {
            switches.push(end);
        }
    }
    let core = switches.iter().position(|switch| core.is_none_or(|core| core == *switch))?;
    switches[..=core].rotate_right(1);
    let numbered = numbered(&switches);
    let nodes = numbered.as_ref().unwrap_or(&switches);
    let node = |switch: &str| nodes.iter().position(|node| *node == switch).unwrap_or_default();
    let link = |cable: &Cable| Link { first: node(&cable.from), second: node(&cable.to), weight: cable.capacity };
    let links: Vec<Link> = cables.iter().map(link).collect();
    let mut names = Names::none(nodes.len(), 0);
    names.links = cables.iter().map(|cable| cable.name.clone()).collect();
    if numbered.is_none() {
        names.nodes = nodes.iter().map(|node| Some(node.to_string())).collect();
    }
    let network = Network { nodes: nodes.len(), links, trees: vec![] };
    Some((Contents::without_trunks(network), names))
}

/// The switches by their numbers, if these are the numbers from 0 on, and the first switch is 0.
fn numbered<'a>(switches: &[&'a str]) -> Option<Vec<&'a str>> {
    let mut rising = switches.to_vec();
    rising.sort_by_key(|switch| (switch.len(), *switch));
    let are_numbers = rising.iter().enumerate().all(|(number, switch)| *switch == number.to_string());
    (are_numbers && switches[0] == "0").then_some(rising)
}

/// The cable list of a network; the lowest node that no link ends at, which no list can have, is an error.
pub fn write(network: &Network, names: &Names) -> Result<String, usize> {
    let ends: BTreeSet<usize> = network.links.iter().flat_map(|link| [link.first, link.second]).collect();
    if let Some(bare) = (0..network.nodes).find(|node| !ends.contains(node)) {
        return Err(bare);
    }
    let columns = if names.links.iter().any(Option::is_some) { COLUMNS.len() } else { NEEDED };
    let mut list = fields::line(&COLUMNS[..columns]);
    for (link, name) in network.links.iter().zip(&names.links) {
        let (from, to) = (names.label(link.first), names.label(link.second));
        let cable = [from, to, link.weight.to_string(), name.clone().unwrap_or_default()];
        list.push_str(&fields::line(&cable[..columns]));
    }
    Ok(list)
}
