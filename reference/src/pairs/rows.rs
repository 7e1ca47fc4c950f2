//! Where the rows of a tree's pairs start: a row for each rank, with a slot for each rank below it.

/// Where the row of a rank starts: the rows before it have 0, 1, 2 and so on slots.
pub fn row_start(rank: usize) -> usize {
    (0..rank).sum()
}

#[cfg(test)]
mod tests {
    use super::*;
    use crate::sheet::MOST_NODES;

    /// What the program that prints the row starts is held to, and the source of the table.
    const PRINTED: &str = include_str!("../../../crates/rows/stdout");
    const SOURCE: &str = include_str!("../../../crates/row_starts/src/lib.rt");

    const TABLE_START: &str = "const ROW_STARTS: [u16; ROWS] = [\n";
    const TABLE_END: &str = "];\n";

    /// The row starts of every rank that a tree's link can have.
    fn row_starts() -> Vec<usize> {
        (0..MOST_NODES - 1).map(row_start).collect()
    }

    /// The numbers that a program prints, one a line; none if a line has anything else.
    fn printed(output: &str) -> Option<Vec<usize>> {
        let number = |line: &str| line.strip_suffix('\n')?.parse().ok();
        output.split_inclusive('\n').map(number).collect()
    }

    /// The numbers of the only table in a source, each with a comma behind it; none if anything else is there.
    fn table(source: &str) -> Option<Vec<usize>> {
        let (before, behind) = source.split_once(TABLE_START)?;
        let (lines, rest) = behind.split_once(TABLE_END)?;
        let is_only = ![before, rest].iter().any(|part| part.contains(TABLE_START));
        let number = |word: &str| word.strip_suffix(',')?.parse().ok();
        lines.split_whitespace().map(number).collect::<Option<Vec<usize>>>().filter(|_| is_only)
    }

    #[test]
    fn a_row_starts_at_half_the_product() {
        assert_eq!([0, 1, 2, 3, 4, 5].map(row_start), [0, 0, 1, 3, 6, 10]);
        assert_eq!(row_start(254), 32_131);
        assert!((1..=MOST_NODES).all(|rank| 2 * row_start(rank) == rank * (rank - 1)));
    }

    #[test]
    fn the_program_prints_every_row_start_and_the_table_has_them() {
        assert_eq!(printed(PRINTED), Some(row_starts()));
        assert_eq!(table(SOURCE), Some(row_starts()));
        assert_eq!(row_starts().len(), 255);
    }

    /// The numbers with one left out, one there twice, and another one in its place, each at several places; each number ends as `ends` says.
    fn wrong(numbers: &str, ends: char) -> Vec<String> {
        let lines: Vec<&str> = numbers.split_inclusive(ends).collect();
        let at = |place: usize| {
            let (before, rest) = lines.split_at(place);
            let (line, behind) = (rest[0], &rest[1..]);
            let other = line.replacen(|digit: char| digit.is_ascii_digit(), "7", 1);
            [vec![], vec![line, line], vec![&other]].map(|instead| [before, &instead, behind].concat().concat())
        };
        [0, 1, 2, 100, lines.len() - 1].into_iter().flat_map(at).collect()
    }

    #[test]
    fn a_number_that_is_missing_surplus_or_wrong_is_noticed() {
        for output in wrong(PRINTED, '\n') {
            assert_ne!(printed(&output), Some(row_starts()), "{output}");
        }
        let (before, behind) = SOURCE.split_once(TABLE_START).expect("a table");
        let (lines, rest) = behind.split_once(TABLE_END).expect("the table's end");
        for lines in wrong(lines.trim_end(), ',') {
            let source = [before, TABLE_START, &lines, TABLE_END, rest].concat();
            assert_ne!(table(&source), Some(row_starts()), "{source}");
        }
        assert_eq!(printed(PRINTED.trim_end()), None);
        assert_eq!(table(&SOURCE.repeat(2)), None);
    }
}
