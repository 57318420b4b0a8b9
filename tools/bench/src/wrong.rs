//! Recorded packs with words changed so that their form stays good, or nearly so: what
//! changes is the verdict.
use crate::edits::{self, Edit, Record, get};
use crate::numbers::Numbers;
use certpack::pack::{self, PREDICATE, Pack, VARIABLE};

/// A larger pack is left as it is.
const LARGEST: usize = 8 << 10;
/// For each case so many changes of each sort, and so many pairs of any two.
const OF_A_SORT: usize = 32;
const PAIRS: usize = 64;

/// One field changed, or two.
type Change = [Option<Edit>; 2];

/// Changes of a pack, drawn; `test` looks at each.
pub fn check(
    drawn: &mut Numbers,
    bytes: &[u8],
    mut test: impl FnMut(&[u8]) -> Result<(), String>,
) -> Result<(), String> {
    if bytes.len() > LARGEST {
        return Ok(());
    }
    let pack = pack::decode(bytes).map_err(|refusal| refusal.to_string())?;
    let records = edits::records(bytes, &pack);
    let mut one = |changes: &[Change]| -> Result<(), String> {
        let edits: Vec<Edit> = changes.iter().flatten().flatten().copied().collect();
        let change = |bytes: Vec<u8>, edit: &Edit| edit.apply(&bytes, &records);
        let changed = edits.iter().fold(bytes.to_vec(), change);
        test(&changed).map_err(|why| format!("{edits:?}: {why}"))
    };
    let mut all = Vec::new();
    for mut changes in Words::new(bytes, &pack, &records).changes() {
        for i in 0..changes.len().min(OF_A_SORT) {
            let other = i + drawn.below(changes.len() - i);
            changes.swap(i, other);
            one(&[changes[i]])?;
        }
        changes.truncate(OF_A_SORT);
        all.append(&mut changes);
    }
    if !all.is_empty() {
        for _ in 0..PAIRS {
            one(&[0; 2].map(|_| all[drawn.below(all.len())]))?;
        }
    }
    Ok(())
}

/// A pack's words by the records that hold them.
struct Words<'a> {
    bytes: &'a [u8],
    pack: &'a Pack,
    rules: &'a [Record],
    nodes: &'a [Record],
    steps: &'a [Record],
    goals: &'a [Record],
    results: &'a [Record],
    /// The nodes that are judgments.
    judgments: Vec<u32>,
}

/// Where a word of a record's body stands.
fn word(record: &Record, i: usize) -> usize {
    record.at.start + 6 + 4 * i
}

fn set(place: usize, value: u32) -> Edit {
    Edit::Field {
        place,
        width: 4,
        value,
    }
}

impl<'a> Words<'a> {
    fn new(bytes: &'a [u8], pack: &'a Pack, records: &'a [Record]) -> Self {
        let (_, rest) = records.split_at(pack.sorts.len() + pack.symbols.len());
        let (rules, rest) = rest.split_at(pack.rules.len());
        let (nodes, rest) = rest.split_at(pack.nodes.len());
        let (steps, rest) = rest.split_at(pack.steps.len());
        let (goals, rest) = rest.split_at(pack.goals.len());
        let (results, _) = rest.split_at(pack.results.len());
        let all = 0..pack.nodes.len() as u32;
        Words {
            bytes,
            pack,
            rules,
            nodes,
            steps,
            goals,
            results,
            judgments: all.filter(|&n| pack.sort_of(n) == PREDICATE).collect(),
        }
    }

    /// All changes, by sort.
    fn changes(&self) -> [Vec<Change>; 9] {
        [
            self.step_rules(),
            self.step_judgments(),
            self.refs(),
            self.refs_swapped(),
            self.goal_judgments(),
            self.result_steps(),
            self.result_names(),
            self.rule_words(),
            self.arguments(),
        ]
    }

    /// The word at a place with each of these values but its own.
    fn each(&self, place: usize, values: impl IntoIterator<Item = u32>) -> Vec<Change> {
        let old = get(self.bytes, place, 4);
        let others = values.into_iter().filter(|&value| value != old);
        others
            .map(|value| [Some(set(place, value)), None])
            .collect()
    }

    /// Another rule with as many premises.
    fn step_rules(&self) -> Vec<Change> {
        let premises = |rule: usize| self.pack.rules[rule].premises.len();
        let of_a_step = |step: &Record| {
            let old = get(self.bytes, word(step, 0), 4) as usize;
            let alike = (0..self.rules.len()).filter(|&rule| premises(rule) == premises(old));
            self.each(word(step, 0), alike.map(|rule| rule as u32))
        };
        self.steps.iter().flat_map(of_a_step).collect()
    }

    fn step_judgments(&self) -> Vec<Change> {
        let of_a_step = |step| self.each(word(step, 1), self.judgments.iter().copied());
        self.steps.iter().flat_map(of_a_step).collect()
    }

    fn refs(&self) -> Vec<Change> {
        let mut changes = Vec::new();
        for (i, step) in self.steps.iter().enumerate() {
            for at in 0..self.pack.steps[i].refs.len() {
                changes.extend(self.each(word(step, 2 + at), 0..i as u32));
            }
        }
        changes
    }

    /// Two unlike refs in each other's place.
    fn refs_swapped(&self) -> Vec<Change> {
        let mut changes = Vec::new();
        for (i, step) in self.steps.iter().enumerate() {
            let refs = &self.pack.steps[i].refs;
            for a in 0..refs.len() {
                for b in (a + 1..refs.len()).filter(|&b| refs[a] != refs[b]) {
                    let swapped = [(a, refs[b]), (b, refs[a])];
                    changes.push(swapped.map(|(at, to)| Some(set(word(step, 2 + at), to))));
                }
            }
        }
        changes
    }

    fn goal_judgments(&self) -> Vec<Change> {
        let of_a_goal = |goal| self.each(word(goal, 0), self.judgments.iter().copied());
        self.goals.iter().flat_map(of_a_goal).collect()
    }

    fn result_steps(&self) -> Vec<Change> {
        let steps = self.steps.len() as u32;
        let of_a_result = |result| self.each(word(result, 0), 0..steps);
        self.results.iter().flat_map(of_a_result).collect()
    }

    /// Another last byte of a result's name: its goal has none, or another has it.
    fn result_names(&self) -> Vec<Change> {
        let mut changes = Vec::new();
        for result in self.results {
            let place = result.at.end - 1;
            for value in [b'0', b'1', b'2', b'g', b'~'].map(u32::from) {
                let width = 1;
                if get(self.bytes, place, width) != value {
                    let edit = Edit::Field {
                        place,
                        width,
                        value,
                    };
                    changes.push([Some(edit), None]);
                }
            }
        }
        changes
    }

    /// Another symbol of the same type; of constants and variables any of the same sort.
    fn rule_words(&self) -> Vec<Change> {
        let symbols = &self.pack.symbols;
        let mut changes = Vec::new();
        for (rule, record) in self.pack.rules.iter().zip(self.rules) {
            let variables = |sort: u32| {
                let all = 0..rule.vars.len() as u32;
                let alike = all.filter(move |&v| rule.vars[v as usize] == sort);
                alike.map(|v| VARIABLE + v)
            };
            // Behind the two counts, which fill a word, and the variables' sorts.
            let mut place = word(record, 1 + rule.vars.len());
            while place < record.at.end - record.name {
                let old = get(self.bytes, place, 4);
                let (inputs, output) = match old.checked_sub(VARIABLE) {
                    Some(v) => (&[][..], rule.vars[v as usize]),
                    None => {
                        let symbol = &symbols[old as usize];
                        (&symbol.inputs[..], symbol.output)
                    }
                };
                let alike = |&s: &u32| {
                    let symbol = &symbols[s as usize];
                    symbol.inputs == inputs && symbol.output == output
                };
                changes.extend(self.each(place, (0..symbols.len() as u32).filter(alike)));
                if inputs.is_empty() {
                    changes.extend(self.each(place, variables(output)));
                }
                place += 4;
            }
        }
        changes
    }

    /// Another node of the sort as a node's argument, which may make two nodes the same.
    fn arguments(&self) -> Vec<Change> {
        let mut changes = Vec::new();
        for (i, (node, record)) in self.pack.nodes.iter().zip(self.nodes).enumerate() {
            for (at, &argument) in node[1..].iter().enumerate() {
                let sort = self.pack.sort_of(argument);
                let alike = (0..i as u32).filter(|&n| self.pack.sort_of(n) == sort);
                changes.extend(self.each(word(record, 1 + at), alike));
            }
        }
        changes
    }
}
