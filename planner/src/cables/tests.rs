use super::*;
use reference::generate::{self, FEATURES};
use reference::random::Random;

fn cable(from: &str, to: &str, capacity: u64, name: Option<&str>) -> Cable {
    Cable { from: from.to_string(), to: to.to_string(), capacity, name: name.map(str::to_string) }
}

#[track_caller]
fn assert_faults(list: impl AsRef<[u8]>, expected: &[(usize, &str)]) {
    let faults = read(list.as_ref()).expect_err("a list with faults");
    let said: Vec<(usize, &str)> = faults.iter().map(|fault| (fault.line, fault.message.as_str())).collect();
    assert_eq!(said, expected);
}

#[test]
fn fields_may_be_quoted_and_parted_in_three_ways() {
    let cables = [cable("core", "hall B, north", 1000, None), cable("hall; \"C\"", "core", 0, Some("radio #1"))];
    let commas = "from,to,capacity,name\ncore,\"hall B, north\",1000,\n\"hall; \"\"C\"\"\",core,0,radio #1\n";
    let semicolons = "\u{feff}\r\nFrom; To ;CAPACITY; name\r\n core ; hall B, north ;1000\r\n;;;\r\n\"hall; \"\"C\"\"\" ;core; 0 ; \"radio\n#1\"";
    let tabs = "name\tcapacity\tfrom\tto\n\t1000\tcore\thall  B, north\nradio #1\t0\t\"hall; \"\"C\"\"\"\tcore\n";
    for list in [commas, semicolons, tabs] {
        assert_eq!(read(list.as_bytes()).as_deref(), Ok(&cables[..]), "{list}");
    }
}

#[test]
fn all_faults_of_a_list_are_named_by_their_lines() {
    let list = "from,to,capacity\na,b,1\na,b\n\na,b,1,2\n,b,1\na, ,1\na,a,1\na,b,x\na,b,-1\na,b,1.5\na,b,4294967296\n\"a\"x,b,1\n\"a\nb\",c,y\na,\"b,1\nc,d,1\n";
    assert_faults(
        list,
        &[
            (3, "expected a capacity in digits that is at most 4294967295, found ''"),
            (5, "expected 3 fields as in the header line, found 4"),
            (6, "expected a name of a switch in the column 'from'"),
            (7, "expected a name of a switch in the column 'to'"),
            (8, "expected two different switches, found 'a' at both ends"),
            (9, "expected a capacity in digits that is at most 4294967295, found 'x'"),
            (10, "expected a capacity in digits that is at most 4294967295, found '-1'"),
            (11, "expected a capacity in digits that is at most 4294967295, found '1.5'"),
            (12, "expected a capacity in digits that is at most 4294967295, found '4294967296'"),
            (13, "expected the next field behind the closing quote, found 'x'"),
            (14, "expected a capacity in digits that is at most 4294967295, found 'y'"),
            (16, "expected a closing quote for the one that opens here"),
        ],
    );
    assert_faults(
        "from,to,capacity,name\na,a,x,\u{7}\n,b\u{7},1,\n",
        &[
            (2, "expected two different switches, found 'a' at both ends"),
            (2, "expected a capacity in digits that is at most 4294967295, found 'x'"),
            (2, "expected a name without control characters in the column 'name'"),
            (3, "expected a name of a switch in the column 'from'"),
            (3, "expected a name without control characters of a switch in the column 'to'"),
        ],
    );
    assert_faults(b"from,to,capacity\na,K\xfchlhaus,1\n", &[(2, "expected text in UTF-8, found a byte that is none")]);
    let control = "expected a name without control characters of a switch in the column 'to'";
    assert_faults("from,to,capacity\na,b\u{1b}[2J,1\n", &[(2, control)]);
}

#[test]
fn a_list_needs_a_header_and_a_cable() {
    let header = "expected a header line such as from,to,capacity,name";
    assert_faults("", &[(1, &format!("{header}, found an empty file"))]);
    assert_faults("a,b,1\n", &[(1, &format!("{header}, found 'a'"))]);
    assert_faults("\nfrom,to\n", &[(2, &format!("{header}, found no 'capacity'"))]);
    assert_faults("from,to,capacity,length\na,b,1,2\n", &[(1, &format!("{header}, found 'length'"))]);
    assert_faults("from,to,from,capacity\na,b,c,1\n", &[(1, &format!("{header}, found 'from' a second time"))]);
    assert_faults("from,to,capacity\n\n", &[(2, "expected a cable behind the header line")]);
    assert_faults("from,to,capacity", &[(1, "expected a cable behind the header line")]);
}

#[test]
fn limits_are_the_monitors() {
    let list = |cables: Vec<String>| format!("from,to,capacity\n{}", cables.concat());
    let star = |leaves: usize| list((1..=leaves).map(|leaf| format!("core,leaf {leaf},1\n")).collect());
    assert!(read(star(255).as_bytes()).is_ok());
    assert_faults(star(300), &[(257, "expected at most 256 switches, which the monitor takes, found one more")]);
    let parallel = |count: usize| list(vec!["a,b,4294967295\n".to_string(); count]);
    assert!(read(parallel(2048).as_bytes()).is_ok());
    assert_faults(parallel(2100), &[(2050, "expected at most 2048 cables, which the monitor takes, found one more")]);
}

fn named(network: Option<(Contents, Names)>) -> (Vec<String>, Vec<(usize, usize, u64)>) {
    let (contents, names) = network.expect("a core");
    let nodes = names.nodes.into_iter().map(Option::unwrap_or_default).collect();
    (nodes, contents.network.links.iter().map(|link| (link.first, link.second, link.weight)).collect())
}

#[test]
fn the_core_is_node_0_and_the_others_are_numbered_as_they_are_met() {
    let cables = [cable("b", "a", 5, None), cable("c", "b", 6, None), cable("a", "d", 7, None)];
    let strings = |names: [&str; 4]| names.map(str::to_string).to_vec();
    assert_eq!(named(network(&cables, None)), (strings(["b", "a", "c", "d"]), vec![(0, 1, 5), (2, 0, 6), (1, 3, 7)]));
    let with_core = (strings(["c", "b", "a", "d"]), vec![(1, 2, 5), (0, 1, 6), (2, 3, 7)]);
    assert_eq!(named(network(&cables, Some("c"))), with_core);
    assert_eq!(network(&cables, Some("e")), None);
}

#[test]
fn numbers_from_0_on_are_the_nodes_and_others_are_names() {
    let cables = [cable("0", "2", 5, None), cable("2", "1", 6, Some("x")), cable("10", "1", 7, None)];
    let (contents, names) = network(&cables[..2], None).expect("a core");
    assert_eq!(names, Names { nodes: vec![None; 3], links: vec![None, Some("x".to_string())] });
    assert_eq!(
        contents.network.links.iter().map(|link| (link.first, link.second)).collect::<Vec<_>>(),
        [(0, 2), (2, 1)]
    );
    let strings = |names: &[&str]| names.iter().map(|name| name.to_string()).collect::<Vec<_>>();
    assert_eq!(named(network(&cables[..2], Some("1"))).0, strings(&["1", "0", "2"]));
    assert_eq!(named(network(&cables[1..2], None)).0, strings(&["2", "1"]));
    assert_eq!(named(network(&cables, None)).0, strings(&["0", "2", "1", "10"]));
}

/// A network by its switches, whatever their numbers.
fn by_names(network: &Network, names: &Names) -> Vec<(String, String, u64, Option<String>)> {
    let name = |node: usize| names.nodes[node].clone().unwrap_or_else(|| node.to_string());
    let link =
        |(link, label): (&Link, &Option<String>)| (name(link.first), name(link.second), link.weight, label.clone());
    network.links.iter().zip(&names.links).map(link).collect()
}

#[test]
fn random_networks_come_back_from_their_lists() {
    let mut random = Random::new(8);
    for feature in FEATURES {
        for _ in 0..30 {
            let size = generate::random_size(&mut random, 2, 40, feature);
            let Network { nodes, links, .. } = generate::network(&mut random, size, feature);
            let network = Network { nodes, links, trees: vec![] };
            let unnamed = Names::none(nodes, network.links.len());
            let list = write(&network, &unnamed).expect("a list");
            let (contents, names) = super::network(&read(list.as_bytes()).expect("cables"), Some("0")).expect("a core");
            assert_eq!((contents.network, names), (network.clone(), unnamed.clone()));
            let mut names = unnamed;
            let odd = ["#", ",", ";", "\"", "\t", "-", "é", " "];
            for (node, name) in names.nodes.iter_mut().enumerate() {
                let odd: String = (0..4).map(|_| random.pick(&odd)).collect();
                *name = Some(names::tidy(&format!("{odd}{node}{odd}")).expect("a name"));
            }
            names.links.iter_mut().filter(|_| random.once_in(2)).for_each(|name| *name = Some("a, b".to_string()));
            let list = write(&network, &names).expect("a list");
            let core = names.nodes[0].as_deref();
            let (contents, read_names) = super::network(&read(list.as_bytes()).expect("cables"), core).expect("a core");
            assert_eq!(by_names(&contents.network, &read_names), by_names(&network, &names));
            assert_eq!(read_names.nodes[0], names.nodes[0]);
        }
    }
}

#[test]
fn a_node_without_a_link_has_no_place_in_a_list() {
    let link = Link { first: 2, second: 0, weight: 1 };
    let network = Network { nodes: 4, links: vec![link], trees: vec![] };
    assert_eq!(write(&network, &Names::none(4, 1)), Err(1));
}
