//! Names of nodes and links: how they are told apart, written and shown.

/// What may stand around a name in a sentence, and so sets a name that holds it in quotes.
const PUNCTUATION: [char; 6] = [',', ';', ':', '(', ')', '"'];
const BETWEEN_NAMES: [&str; 2] = [" and ", " to "];
const BEFORE_NUMBERS: [&str; 2] = ["node ", "nodes "];

/// The names of a network's nodes and links, for those that have one. No two nodes have the same.
#[derive(Clone, Debug, PartialEq, Eq)]
pub struct Names {
    pub nodes: Vec<Option<String>>,
    pub links: Vec<Option<String>>,
}

impl Names {
    /// Of a network without names.
    pub fn none(nodes: usize, links: usize) -> Names {
        Names { nodes: vec![None; nodes], links: vec![None; links] }
    }

    /// Whether the name of some node is a number.
    pub fn have_numbers(&self) -> bool {
        some_is_number(&self.nodes)
    }

    /// Whether the name of some link is a number.
    pub fn links_have_numbers(&self) -> bool {
        some_is_number(&self.links)
    }

    /// The node that is meant by a name or, where no node's name is a number, by its number.
    pub fn find_node(&self, word: &str) -> Option<usize> {
        meant(&self.nodes, word).first().copied()
    }

    /// The links that are meant by a name, which several may have, or, where no link's name is a number, by a link's number.
    pub fn find_links(&self, word: &str) -> Vec<usize> {
        meant(&self.links, word)
    }

    /// `hall-B`, `node 3`.
    pub fn node(&self, node: usize) -> String {
        self.nodes[node].as_deref().map_or_else(|| format!("node {node}"), shown)
    }

    /// A node's name as it is, or its number: `hall B, north`, `3`.
    pub fn label(&self, node: usize) -> String {
        self.nodes[node].clone().unwrap_or_else(|| node.to_string())
    }

    /// `node 1`, `nodes 1 and 2`, `hall-A and hall-B`, `hall-A and node 2`.
    pub fn node_list(&self, nodes: &[usize]) -> String {
        match nodes {
            [_, _, ..] if nodes.iter().all(|&node| self.nodes[node].is_none()) => {
                format!("nodes {}", enumeration(nodes.iter().map(usize::to_string).collect()))
            }
            _ => enumeration(nodes.iter().map(|&node| self.node(node)).collect()),
        }
    }

    /// `3`, `10 radio bridge`.
    pub fn link(&self, link: usize) -> String {
        self.links[link].as_deref().map_or_else(|| link.to_string(), |name| format!("{link} {}", shown(name)))
    }

    /// `2-3`, `hall-A to hall-B`, `hall-A to node 3`.
    pub fn ends(&self, first: usize, second: usize) -> String {
        match (&self.nodes[first], &self.nodes[second]) {
            (None, None) => format!("{first}-{second}"),
            _ => format!("{} to {}", self.node(first), self.node(second)),
        }
    }
}

fn some_is_number(names: &[Option<String>]) -> bool {
    names.iter().flatten().any(|name| is_number(name))
}

/// The places of a name or, where none of the names is a number, the place that has this number.
fn meant(names: &[Option<String>], word: &str) -> Vec<usize> {
    if is_number(word) && !some_is_number(names) {
        return word.parse().ok().filter(|&place| place < names.len()).into_iter().collect();
    }
    (0..names.len()).filter(|&place| names[place].as_deref() == Some(word)).collect()
}

/// A name with single spaces; the error says why it is none.
pub fn tidy(text: &str) -> Result<String, &'static str> {
    let words: Vec<&str> = text.split_whitespace().collect();
    let name = words.join(" ");
    match name.chars().any(char::is_control) {
        true => Err("a name without control characters"),
        false if name.is_empty() => Err("a name"),
        false => Ok(name),
    }
}

pub fn is_number(name: &str) -> bool {
    !name.is_empty() && name.bytes().all(|byte| byte.is_ascii_digit())
}

/// A name as a text has it: in quotes where a part of it would be taken for a comment or for quotes.
pub fn written(name: &str) -> String {
    match name.starts_with('"') || name.contains('#') {
        true => quoted(name),
        false => name.to_string(),
    }
}

/// A name as a sentence has it: in quotes where it could be taken for something else.
fn shown(name: &str) -> String {
    let like_words = BETWEEN_NAMES.iter().any(|word| name.contains(word));
    let like_numbers = is_number(name) || BEFORE_NUMBERS.iter().any(|word| name.starts_with(word));
    match name.contains(PUNCTUATION) || like_words || like_numbers {
        true => quoted(name),
        false => name.to_string(),
    }
}

/// In quotes, with each quote inside twice.
pub fn quoted(text: &str) -> String {
    format!("\"{}\"", text.replace('"', "\"\""))
}

/// `a`, `a and b`, `a, b and c`.
pub fn enumeration(words: Vec<String>) -> String {
    match &words[..] {
        [front @ .., last] if !front.is_empty() => format!("{} and {last}", front.join(", ")),
        _ => words.concat(),
    }
}

/// `1 cut`, `6 cuts`.
pub fn counted(count: usize, what: &str) -> String {
    match count {
        1 => format!("1 {what}"),
        _ => format!("{count} {what}s"),
    }
}

#[cfg(test)]
mod tests {
    use super::*;

    fn names(nodes: &[Option<&str>]) -> Names {
        Names { nodes: nodes.iter().map(|name| name.map(str::to_string)).collect(), links: vec![] }
    }

    fn links(links: &[Option<&str>]) -> Names {
        Names { nodes: vec![], links: names(links).nodes }
    }

    #[test]
    fn nodes_are_found_by_name_and_by_number() {
        let some = names(&[Some("core"), None, Some("hall B")]);
        assert_eq!(["core", "hall B", "0", "1", "2"].map(|word| some.find_node(word)), [0, 2, 0, 1, 2].map(Some));
        assert_eq!(["hall", "3", "", "-1", "+1", "1 "].map(|word| some.find_node(word)), [None; 6]);
        let numbered = names(&[Some("7"), Some("1"), Some("x")]);
        assert_eq!(
            ["7", "1", "x", "0", "2"].map(|word| numbered.find_node(word)),
            [Some(0), Some(1), Some(2), None, None]
        );
    }

    #[test]
    fn links_are_found_by_a_name_that_several_may_have_and_by_number() {
        let some = links(&[Some("old wire"), None, Some("radio"), Some("old wire"), Some("3 b"), Some("link 1")]);
        let found = |names: &Names, words: &[&str]| words.iter().map(|word| names.find_links(word)).collect::<Vec<_>>();
        assert_eq!(found(&some, &["radio", "3 b", "link 1", "1", "5", "05"]), [[2], [4], [5], [1], [5], [5]]);
        assert_eq!(some.find_links("old wire"), [0, 3]);
        let none: [Vec<usize>; 8] = Default::default();
        assert_eq!(found(&some, &["wire", "6", "99999999999999999999999", "", "-1", "+1", "1 ", "Radio"]), none);
        let numbered = links(&[Some("2"), None, Some("radio"), Some("2"), Some("5"), Some("02")]);
        assert_eq!(found(&numbered, &["5", "02", "radio"]), [[4], [5], [2]]);
        assert_eq!(numbered.find_links("2"), [0, 3]);
        assert_eq!(found(&numbered, &["1", "0", "4"]), none[..3]);
        assert_eq!(
            [some.links_have_numbers(), numbered.links_have_numbers(), numbered.have_numbers()],
            [false, true, false]
        );
    }

    #[test]
    fn numbers_stand_where_there_is_no_name() {
        let some = names(&[Some("core"), None, Some("hall B"), None]);
        assert_eq!(some.node_list(&[1]), "node 1");
        assert_eq!(some.node_list(&[1, 3]), "nodes 1 and 3");
        assert_eq!(some.node_list(&[0, 1, 2, 3]), "core, node 1, hall B and node 3");
        assert_eq!(
            (some.ends(3, 1), some.ends(3, 0), some.ends(2, 1)),
            ("3-1".into(), "node 3 to core".into(), "hall B to node 1".into())
        );
    }

    #[test]
    fn labels_and_counts_are_plain() {
        let some = names(&[Some("hall B, \"north\""), None, Some("7")]);
        assert_eq!([0, 1, 2].map(|node| some.label(node)), ["hall B, \"north\"", "1", "7"]);
        assert_eq!([0, 1, 2].map(|count| counted(count, "tree")), ["0 trees", "1 tree", "2 trees"]);
    }

    #[test]
    fn all_nodes_of_a_list_are_named() {
        let upto = |last: usize| names(&[None; 15]).node_list(&(1..=last).collect::<Vec<_>>());
        assert_eq!(upto(1), "node 1");
        assert_eq!(upto(2), "nodes 1 and 2");
        assert_eq!(upto(14), "nodes 1, 2, 3, 4, 5, 6, 7, 8, 9, 10, 11, 12, 13 and 14");
    }

    #[test]
    fn a_name_that_could_mislead_is_quoted() {
        let plain = ["hall-B", "Hall B/2", "Kühlhaus #3", "nodes", "17a"];
        plain.iter().for_each(|name| assert_eq!(shown(name), *name));
        let misleading = ["17", "node 5", "nodes 1", "B, north", "B (old)", "up and down", "A to B", "a:1"];
        misleading.iter().for_each(|name| assert_eq!(shown(name), format!("\"{name}\"")));
        assert_eq!(shown("the \"old\" hall"), "\"the \"\"old\"\" hall\"");
    }

    #[test]
    fn names_are_tidied() {
        assert_eq!(tidy("  hall \t B "), Ok("hall B".to_string()));
        assert_eq!(tidy(" \t"), Err("a name"));
        assert_eq!(tidy("hall\u{7}"), Err("a name without control characters"));
    }
}
