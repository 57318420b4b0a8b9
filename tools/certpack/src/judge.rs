//! Judges a recorded case without the original: what document 01 says of classes,
//! patterns, figures, shown goals and lines, tested on the recorded words and text.
use crate::needed::{first_steps, is_cut, needed, predicate, refs, slot};
use crate::pack::{Pack, decode};
use crate::shown::{self, Budgets, VAR};
use crate::vectors::Case;
use crate::verdict::verdict;
use std::collections::{BTreeSet, HashMap, HashSet};

const NONE: u32 = u32::MAX;

type Judged = Result<(), String>;

fn test(holds: bool, why: impl Into<String>) -> Judged {
    if holds { Ok(()) } else { Err(why.into()) }
}

/// What is wrong with a case, if anything.
pub fn judge(case: &Case) -> Judged {
    let pack = decode(&case.pack).map_err(|r| format!("the pack is refused: {r}"))?;
    test(
        pack.encode() == case.pack,
        "the pack is not encoded back to its bytes",
    )?;
    let verdict = verdict(&pack);
    test(
        !matches!(verdict, Some((3, _))),
        "a step of a recorded certificate fails the step check",
    )?;
    test(
        case.kernel != "accepts" || verdict.is_none(),
        "the original's kernel accepts what the step check refuses",
    )?;
    if case.classes != "done" {
        return test(case.emit != "done", "emission without classes");
    }
    let run = Run::of(&pack, case)?;
    run.classes()?;
    run.figures(&case.figures)?;
    // Where a goal has not its result's judgment the original answers what no paper asks for.
    if verdict.is_some() {
        return Ok(());
    }
    // Text that is longer than the recorded one is another.
    let text = run.shown(shown::AS_A_RULE, case.shown.len())?;
    test(text.as_ref() == Some(&case.shown), "the shown goals")?;
    run.opens(&case.open)?;
    match case.emit == "done" {
        true => emission(&pack, case),
        false => Ok(()),
    }
}

/// The conclusion of each goal's class, as its pattern's number, and how many variables the class has.
pub fn conclusions(pack: &Pack, case: &Case) -> Result<Vec<(u32, usize)>, String> {
    let run = Run::of(pack, case)?;
    let rows = run.goal_rows()?.into_iter();
    Ok(rows.map(|row| (row.conclusion, row.flex.len())).collect())
}

struct Row {
    conclusion: u32,
    count: u32,
    flex: Vec<u32>,
}

/// What class and pattern words say of a pack.
pub struct Run<'a> {
    pack: &'a Pack,
    class_of: &'a [u32],
    rows: Vec<Row>,
    patterns: Vec<&'a [u32]>,
    /// The first step with each step's judgment.
    first: Vec<u32>,
}

/// Pattern words as nodes: a count, then head and as many further words.
fn nodes(words: &[u32]) -> Result<Vec<&[u32]>, String> {
    let mut nodes = Vec::new();
    let mut rest = words;
    while let Some((&count, tail)) = rest.split_first() {
        let length = count as usize + 1;
        test(length <= tail.len(), "pattern words that end in a node")?;
        let (node, tail) = tail.split_at(length);
        nodes.push(node);
        rest = tail;
    }
    Ok(nodes)
}

/// Nodes are distinct, rest on earlier ones and are well sorted.
fn well_formed(pack: &Pack, nodes: &[&[u32]]) -> Judged {
    let mut seen = HashSet::new();
    let mut sorts = Vec::new();
    for node in nodes {
        test(seen.insert(*node), "a pattern node twice")?;
        if node[0] == VAR {
            test(node.len() == 3, "a pattern variable of another length")?;
            sorts.push(node[2]);
            continue;
        }
        let symbol = pack
            .symbols
            .get(node[0] as usize)
            .ok_or("an unknown head")?;
        test(
            node.len() - 1 == symbol.inputs.len(),
            "a pattern of another arity",
        )?;
        for (&a, &s) in node[1..].iter().zip(&symbol.inputs) {
            test(sorts.get(a as usize) == Some(&s), "an ill-sorted pattern")?;
        }
        sorts.push(symbol.output);
    }
    Ok(())
}

impl<'a> Run<'a> {
    fn of(pack: &'a Pack, case: &'a Case) -> Result<Self, String> {
        Run::read(pack, &case.class_words, &case.pattern_words)
    }

    /// The words without the zeros behind them.
    pub fn read(
        pack: &'a Pack,
        class_words: &'a [u32],
        pattern_words: &'a [u32],
    ) -> Result<Self, String> {
        let patterns = nodes(pattern_words)?;
        well_formed(pack, &patterns)?;
        let n = pack.steps.len();
        test(class_words.len() >= n, "fewer class words than steps")?;
        let (class_of, mut rest) = class_words.split_at(n);
        let mut rows = Vec::new();
        while !rest.is_empty() {
            test(rest.len() >= 3, "a class row that is cut")?;
            let variables = rest[2] as usize;
            test(rest.len() - 3 >= variables, "flex marks that are cut")?;
            test(
                (rest[0] as usize) < patterns.len(),
                "a conclusion that is no pattern",
            )?;
            rows.push(Row {
                conclusion: rest[0],
                count: rest[1],
                flex: rest[3..3 + variables].to_vec(),
            });
            rest = &rest[3 + variables..];
        }
        Ok(Run {
            pack,
            class_of,
            rows,
            patterns,
            first: first_steps(pack),
        })
    }

    /// Classes follow the keys, counts the steps, and every needed step's judgment is
    /// an instance of the conclusion of its class.
    fn classes(&self) -> Judged {
        let mut keys: HashMap<Vec<u32>, u32> = HashMap::new();
        let mut counts = vec![0; self.rows.len()];
        for (s, needed) in needed(self.pack, &self.first).into_iter().enumerate() {
            let class = self.class_of[s];
            if !needed {
                test(class == NONE, format!("unneeded step {s} has a class"))?;
                continue;
            }
            let step = &self.pack.steps[s];
            let key = if is_cut(self.pack, s) {
                vec![VAR, predicate(self.pack, s)]
            } else {
                let classes = refs(self.pack, &self.first, s).map(|r| self.class_of[r]);
                [step.rule].into_iter().chain(classes).collect()
            };
            let next = keys.len() as u32;
            let wanted = *keys.entry(key).or_insert(next);
            test(
                class == wanted,
                format!("step {s} has another class than its key"),
            )?;
            let row = self
                .rows
                .get(class as usize)
                .ok_or("a class without a row")?;
            counts[class as usize] += 1;
            let mut values = HashMap::new();
            test(
                self.instance(row.conclusion, step.judgment, &mut values),
                format!("step {s} is no instance of its class's conclusion"),
            )?;
        }
        test(keys.len() == self.rows.len(), "a row without a class")?;
        for (c, row) in self.rows.iter().enumerate() {
            test(
                row.count == counts[c],
                format!("class {c} miscounts its steps"),
            )?;
            test(
                row.flex.iter().all(|f| *f <= 1),
                format!("class {c} has odd marks"),
            )?;
        }
        Ok(())
    }

    /// Match a pattern; patterns are few and small beside the steps, so no memory is kept.
    fn instance(&self, p: u32, g: u32, values: &mut HashMap<u32, u32>) -> bool {
        let mut todo = vec![(p, g)];
        let mut seen = HashSet::new();
        while let Some((p, g)) = todo.pop() {
            let pattern = self.patterns[p as usize];
            let node = &self.pack.nodes[g as usize];
            if pattern[0] == VAR {
                let sort = self.pack.symbols[node[0] as usize].output;
                if *values.entry(pattern[1]).or_insert(g) != g || sort != pattern[2] {
                    return false;
                }
            } else if pattern[0] != node[0] {
                return false;
            } else if seen.insert((p, g)) {
                todo.extend(pattern[1..].iter().copied().zip(node[1..].iter().copied()));
            }
        }
        true
    }

    fn figures(&self, figures: &[u64]) -> Judged {
        let [
            steps,
            classes,
            ground,
            pattern,
            class_vars,
            flex_vars,
            _,
            entries,
            renamings,
            ..,
        ] = *figures
        else {
            return Err("fewer figures than there are".into());
        };
        test(figures.len() == 13, "another number of figures")?;
        let needed = self.class_of.iter().filter(|c| **c != NONE).count() as u64;
        test(steps == needed, "the figure of needed steps")?;
        test(classes == self.rows.len() as u64, "the figure of classes")?;
        test(
            ground == self.pack.nodes.len() as u64,
            "the figure of ground nodes",
        )?;
        test(
            pattern == self.patterns.len() as u64,
            "the figure of pattern nodes",
        )?;
        let made = self.rows.iter().enumerate().filter(|(c, _)| {
            let step = self.class_of.iter().position(|k| *k as usize == *c);
            step.is_some_and(|s| !is_cut(self.pack, s))
        });
        let marks: Vec<u32> = made.flat_map(|(_, row)| row.flex.clone()).collect();
        test(
            class_vars == marks.len() as u64,
            "the figure of class variables",
        )?;
        let flexible = marks.iter().filter(|f| **f == 1).count() as u64;
        test(flex_vars == flexible, "the figure of flexible variables")?;
        test(renamings <= entries, "more renamings than entries")?;
        let mut slots = [0; 4];
        for row in &self.rows {
            slots[slot(row.count)] += 1;
        }
        test(figures[9..] == slots, "the histogram")
    }

    /// The rows of the goals' classes.
    fn goal_rows(&self) -> Result<Vec<&Row>, String> {
        let results = self.pack.results.iter();
        let results: HashMap<&str, u32> = results.map(|r| (r.name.as_str(), r.at)).collect();
        let row = |name: &str| {
            let step = results.get(name).ok_or("a goal without a result")?;
            let class = self.class_of[self.first[*step as usize] as usize];
            Ok(self
                .rows
                .get(class as usize)
                .ok_or("a goal without a class")?)
        };
        self.pack.goals.iter().map(|g| row(&g.name)).collect()
    }

    /// Open are the variables at record 9's position in the conclusion, without that record the
    /// flexible ones.
    fn opens(&self, open: &[Vec<u32>]) -> Judged {
        let rows = self.goal_rows()?;
        test(rows.len() == open.len(), "goals without open variables")?;
        for (row, open) in rows.iter().zip(open) {
            let wanted = match self.pack.abstracted {
                Some((constructor, position)) => {
                    self.standing(row.conclusion, constructor, position)
                }
                None => (0..)
                    .zip(&row.flex)
                    .filter(|(_, f)| **f == 1)
                    .map(|(k, _)| k)
                    .collect(),
            };
            test(*open == wanted, "a goal's open variables")?;
        }
        Ok(())
    }

    /// The variables that stand somewhere in a pattern as this argument of this constructor.
    fn standing(&self, p: u32, constructor: u32, position: u32) -> Vec<u32> {
        let mut standing = BTreeSet::new();
        let mut seen = HashSet::from([p]);
        let mut todo = vec![p];
        while let Some(p) = todo.pop() {
            let node = self.patterns[p as usize];
            if node[0] == VAR {
                continue;
            }
            if node[0] == constructor {
                let there = self.patterns[node[position as usize + 1] as usize];
                if there[0] == VAR {
                    standing.insert(there[1]);
                }
            }
            todo.extend(node[1..].iter().filter(|&&a| seen.insert(a)));
        }
        standing.into_iter().collect()
    }

    /// The goals as the words say that they are shown; none if the text has more bytes than
    /// `most`.
    pub fn shown(&self, budgets: Budgets, most: usize) -> Result<Option<String>, String> {
        let rows = self.goal_rows()?;
        let mut goals = Vec::new();
        for (goal, row) in self.pack.goals.iter().zip(rows) {
            let mut values = HashMap::new();
            test(
                self.instance(row.conclusion, goal.at, &mut values),
                format!(
                    "goal {} is no instance of its class's conclusion",
                    goal.name
                ),
            )?;
            goals.push(shown::Goal {
                name: &goal.name,
                form: row.conclusion,
                variables: variables(row, values)?,
            });
        }
        Ok(shown::text(
            self.pack,
            &self.patterns,
            &goals,
            budgets,
            most,
        ))
    }
}

/// The variables of a conclusion with their marks and values, ascending.
fn variables(row: &Row, values: HashMap<u32, u32>) -> Result<Vec<shown::Variable>, String> {
    let mut values: Vec<(u32, u32)> = values.into_iter().collect();
    values.sort();
    let marked = values.into_iter().map(|(number, value)| {
        let flex = row.flex.get(number as usize);
        Ok(shown::Variable {
            number,
            flex: *flex.ok_or("a variable without a mark")?,
            value,
        })
    });
    marked.collect()
}

/// The emitted lines agree with the counts and with each other.
fn emission(pack: &Pack, case: &Case) -> Judged {
    let mut words = case.pattern_words.clone();
    words.extend(&case.more_pattern_words);
    well_formed(pack, &nodes(&words)?)?;
    let count = |text: &str, tag: &str| text.lines().filter(|l| l.starts_with(tag)).count() as u64;
    let [open, rigid, steps, inductions, definitions] = case.emitted[..] else {
        return Err("another number of emission's figures".into());
    };
    test(
        open + rigid == pack.goals.len() as u64,
        "open and rigid goals",
    )?;
    test(
        definitions == count(&case.proof, "(def "),
        "the figure of definitions",
    )?;
    test(
        inductions == count(&case.proof, "(induct "),
        "the figure of inductions",
    )?;
    let numbered = case.proof.lines().filter_map(|l| {
        let mut fields = l.split(' ');
        matches!(fields.next(), Some("(step" | "(hyp" | "(induct")).then(|| fields.next())
    });
    let mut written = 0u64;
    for number in numbered {
        let number = number.and_then(|n| n.parse::<u64>().ok());
        test(
            number == Some(written),
            "lines that are not numbered in order",
        )?;
        written += 1;
    }
    test(steps == written, "the figure of emitted steps")?;
    test(count(&case.goals, "(var ") == 1, "the goal lines' variable")?;
    let names = |text: &str, tag: &str| -> Vec<String> {
        let lines = text.lines().filter_map(|l| l.strip_prefix(tag));
        lines
            .filter_map(|l| l.split(' ').next().map(str::to_owned))
            .collect()
    };
    let goals: Vec<String> = pack.goals.iter().map(|g| g.name.clone()).collect();
    test(
        names(&case.goals, "(goal ") == goals,
        "the goal lines' names",
    )?;
    test(
        names(&case.proof, "(result ") == goals,
        "the result lines' names",
    )?;
    let longest = case.emit_used.get(1).copied().unwrap_or(0);
    test(
        longest >= case.proof.len() as u64,
        "a longest text below the text",
    )
}
