//! docs/LAYOUT.md adds up: for every call and any lengths its regions fit in the least
//! work length, with a word a pattern cell to spare.
const PAGE: &str = include_str!("../../../docs/LAYOUT.md");

fn rows(heading: &str) -> Vec<Vec<String>> {
    let part = PAGE.split(heading).nth(1).expect("the heading");
    let lines = part.lines().skip_while(|l| !l.starts_with("|---")).skip(1);
    let table = lines.take_while(|l| l.starts_with('|'));
    table
        .map(|l| {
            l.trim_matches('|')
                .split('|')
                .map(|c| c.trim().to_owned())
                .collect()
        })
        .collect()
}

/// A letter's count for these lengths, as the page's first table gives it.
fn count(rows: &[Vec<String>], letter: &str, pattern: u64, graph: u64, pack: u64) -> u64 {
    let row = rows
        .iter()
        .find(|r| r[0] == letter)
        .expect("a known letter");
    if row[1] == "none" {
        return 0;
    }
    let words: Vec<&str> = row[1].split([' ', ',']).filter(|w| !w.is_empty()).collect();
    let length = match words[0] {
        "pattern" => pattern,
        "graph" => graph,
        "pack" => pack,
        other => panic!("{other} is no length"),
    };
    let count = length / words[2].parse::<u64>().expect("a divisor");
    match words.last().and_then(|w| w.parse().ok()) {
        Some(most) if words.contains(&"most") => count.min(most),
        _ => count,
    }
}

#[test]
fn every_call_fits() {
    let letters = ["A", "K", "Y", "R", "N", "S", "O", "T", "P", "G", "–"];
    let (table, regions) = (rows("## Counts"), rows("## Regions"));
    assert!(regions.len() > 55, "rows are missing");
    let lengths = [
        0,
        1,
        2,
        3,
        6,
        7,
        10,
        13,
        14,
        15,
        16,
        99,
        512,
        4096,
        1 << 20,
        1 << 24,
    ];
    for call in ["check", "classes", "show", "emit"] {
        for pack in lengths {
            for pattern in lengths {
                for graph in lengths {
                    let lent = if call == "check" {
                        (0, 0)
                    } else {
                        (pattern, graph)
                    };
                    let counts: Vec<u64> = letters
                        .iter()
                        .map(|l| count(&table, l, lent.0, lent.1, pack))
                        .collect();
                    let mut sum = lent.0;
                    for row in regions
                        .iter()
                        .filter(|r| r[5].split(' ').any(|c| c == call))
                    {
                        let number = |i: usize| row[i].parse::<u64>().expect("a number");
                        let at = letters.iter().position(|l| *l == row[1]).expect("a letter");
                        sum += counts[at] * number(2) + number(3);
                    }
                    let least = 16 * (lent.0 + lent.1 + pack) + 1024;
                    assert!(
                        sum <= least,
                        "{call} {lent:?} {pack}: {sum} words, not {least}"
                    );
                }
            }
        }
    }
}

/// The page's own sums are those of its table.
#[test]
fn the_sums_are_true() {
    let regions = rows("## Regions");
    let sums = rows("## Sum");
    for call in ["check", "classes", "show", "emit"] {
        let row = sums.iter().find(|r| r[0] == call).expect("the call's sums");
        let mut per = [0.0; 3];
        let mut constant = 0;
        for r in regions
            .iter()
            .filter(|r| r[5].split(' ').any(|c| c == call))
        {
            let words: f64 = r[2].parse().expect("a number");
            constant += r[3].parse::<u64>().expect("a number");
            match r[1].as_str() {
                "P" => per[0] += words / 2.0,
                "G" => per[1] += words,
                "–" => {}
                letter => per[2] += words / f64::from(shortest(letter)),
            }
        }
        for (i, exact) in per.iter().enumerate() {
            let stated: f64 = row[i + 1].parse().expect("a number");
            assert!(
                *exact <= stated && stated < exact + 0.1,
                "{call} {i}: {exact}"
            );
        }
        assert_eq!(row[4].parse::<u64>().expect("a number"), constant, "{call}");
    }
}

fn shortest(letter: &str) -> u32 {
    let rows = rows("## Counts");
    let row = rows
        .iter()
        .find(|r| r[0] == letter)
        .expect("a known letter");
    let words: Vec<&str> = row[1].split([' ', ',']).collect();
    words[2].parse().expect("a divisor")
}
