//! Document 01's forms and limits, each a little below, at and above, on hand-made bytes.
use certpack::pack::{PREDICATE, Pack, VARIABLE, decode};

fn word(w: u32) -> Vec<u8> {
    w.to_le_bytes().to_vec()
}

fn half(h: u16) -> Vec<u8> {
    h.to_le_bytes().to_vec()
}

fn record(kind: u16, body: &[Vec<u8>]) -> Vec<u8> {
    let body = body.concat();
    [word(body.len() as u32), half(kind), body].concat()
}

fn name(text: &str) -> Vec<u8> {
    text.as_bytes().to_vec()
}

fn sort(text: &str) -> Vec<u8> {
    record(1, &[name(text)])
}

fn symbol(output: u32, inputs: &[u32], text: &str) -> Vec<u8> {
    let mut body = vec![word(output), half(inputs.len() as u16)];
    body.extend(inputs.iter().map(|&i| word(i)));
    body.push(name(text));
    record(2, &body)
}

fn rule(vars: &[u32], premises: u16, words: &[u32], text: &str) -> Vec<u8> {
    let mut body = vec![half(vars.len() as u16), half(premises)];
    body.extend(vars.iter().chain(words).map(|&w| word(w)));
    body.push(name(text));
    record(3, &body)
}

fn words(kind: u16, ws: &[u32]) -> Vec<u8> {
    record(kind, &ws.iter().map(|&w| word(w)).collect::<Vec<_>>())
}

fn named(kind: u16, at: u32, text: &str) -> Vec<u8> {
    record(kind, &[word(at), name(text)])
}

const V: u32 = VARIABLE;

/// Sort N; z, s, and a predicate n; the rules nz and ns; nodes z, n(z), s z.
fn front() -> Vec<Vec<u8>> {
    vec![
        sort("N"),
        symbol(0, &[], "z"),
        symbol(0, &[0], "s"),
        symbol(PREDICATE, &[0], "n"),
        rule(&[], 0, &[2, 0], "nz"),
        rule(&[0], 1, &[2, V, 2, 1, V], "ns"),
        words(4, &[0]),
        words(4, &[2, 0]),
        words(4, &[1, 0]),
    ]
}

/// The front up to a kind, then these records: what the reader says of the last.
fn behind(kind: u16, last: &[Vec<u8>]) -> Result<Pack, (u32, &'static str)> {
    let kept = front().into_iter().filter(|r| u16::from(r[4]) <= kind);
    let mut records: Vec<Vec<u8>> = kept.collect();
    records.extend_from_slice(last);
    let at: usize = records[..records.len() - 1].iter().map(Vec::len).sum();
    decode(&records.concat()).map_err(|r| {
        let place = if r.place == at { "last" } else { "elsewhere" };
        (r.number, place)
    })
}

fn good(kind: u16, last: &[Vec<u8>]) {
    let pack = behind(kind, last);
    assert!(pack.is_ok(), "{pack:?}");
}

fn bad(number: u32, kind: u16, last: &[Vec<u8>]) {
    assert_eq!(behind(kind, last).map(|_| ()), Err((number, "last")));
}

#[test]
fn the_documents_own_record() {
    let bytes = [5, 0, 0, 0, 7, 0, 2, 0, 0, 0, 0x67];
    assert_eq!(named(7, 2, "g"), bytes);
}

#[test]
fn headers() {
    bad(1, 1, &[vec![1]]);
    bad(1, 1, &[vec![1, 0, 0, 0, 1]]);
    bad(1, 1, &[vec![1, 0, 0, 0, 1, 0]]);
    bad(1, 1, &[vec![255, 255, 255, 255, 1, 0, 65]]);
    bad(1, 1, &[record(0, &[name("a")])]);
    bad(1, 9, &[record(10, &[name("a")])]);
    bad(1, 1, &[record(257, &[name("a")])]);
    bad(1, 2, &[sort("late")]);
    good(1, &[sort("A"), sort("B")]);
    good(9, &[words(8, &[2])]);
}

#[test]
fn names() {
    let long = "n".repeat(64);
    for text in ["a", "a?", "!~", "N'", long.as_str()] {
        good(1, &[sort(text)]);
    }
    let longer = "n".repeat(65);
    for text in [
        "",
        "?a",
        "?",
        "a b",
        "a(",
        ")a",
        "\u{7f}",
        "é",
        longer.as_str(),
    ] {
        bad(1, 1, &[sort(text)]);
    }
    bad(1, 1, &[sort("N")]);
    bad(1, 2, &[symbol(PREDICATE, &[], "z")]);
    bad(1, 3, &[rule(&[], 0, &[2, 0], "ns")]);
    good(3, &[rule(&[], 0, &[2, 0], "N")]);
    bad(1, 6, &[named(6, 1, "g"), named(6, 1, "g")]);
    let step = words(5, &[0, 1]);
    good(5, &[step.clone(), named(6, 1, "g"), named(7, 0, "g")]);
    bad(1, 5, &[step, named(7, 0, "g"), named(7, 0, "g")]);
}

#[test]
fn counts_of_sorts_symbols_rules() {
    let sorts: Vec<Vec<u8>> = (0..256).map(|i| sort(&format!("a{i}"))).collect();
    let decoded = |records: &[Vec<u8>]| decode(&records.concat()).map_err(|r| r.number);
    assert!(decoded(&sorts).is_ok());
    let more = [sorts, vec![record(1, &[])]].concat();
    assert_eq!(decoded(&more), Err(2));
    let symbols: Vec<Vec<u8>> = (0..4096)
        .map(|i| symbol(PREDICATE, &[], &format!("a{i}")))
        .collect();
    assert!(decoded(&symbols).is_ok());
    let more = [symbols, vec![record(2, &[word(0)])]].concat();
    assert_eq!(decoded(&more), Err(2));
    let rules = (0..4096).map(|i| rule(&[], 0, &[0], &format!("r{i}")));
    let rules: Vec<Vec<u8>> = [symbol(PREDICATE, &[], "q")]
        .into_iter()
        .chain(rules)
        .collect();
    assert!(decoded(&rules).is_ok());
    let more = [rules, vec![record(3, &[])]].concat();
    assert_eq!(decoded(&more), Err(2));
}

#[test]
fn symbols() {
    good(2, &[symbol(0, &[0; 16], "w")]);
    bad(2, 2, &[symbol(0, &[0; 17], "w")]);
    bad(2, 2, &[record(2, &[word(9), half(17)])]);
    bad(1, 2, &[record(2, &[word(0), vec![17]])]);
    bad(1, 2, &[symbol(1, &[], "w")]);
    bad(1, 2, &[symbol(0, &[1], "w")]);
    bad(1, 2, &[record(2, &[word(0), half(1), vec![0, 0, 0]])]);
}

#[test]
fn rules() {
    good(3, &[rule(&[0; 64], 0, &[2, 0], "r")]);
    bad(2, 3, &[record(3, &[half(65), half(0)])]);
    bad(2, 3, &[record(3, &[half(0), half(17)])]);
    bad(1, 3, &[record(3, &[half(65)])]);
    let premises: Vec<u32> = [2, 0].repeat(17);
    good(3, &[rule(&[], 16, &premises, "r")]);
    bad(1, 3, &[rule(&[1], 0, &[2, 0], "r")]);
    // A variable on top, a constructor on top, a predicate below, a variable that is not there.
    bad(1, 3, &[rule(&[0], 0, &[V], "r")]);
    bad(1, 3, &[rule(&[0], 0, &[0], "r")]);
    bad(1, 3, &[rule(&[0], 0, &[2, 2, 0], "r")]);
    bad(1, 3, &[rule(&[0], 0, &[2, V + 1], "r")]);
    bad(1, 3, &[rule(&[], 0, &[2, 7], "r")]);
    // A variable at a place of another sort.
    let two = [
        sort("N"),
        sort("M"),
        symbol(PREDICATE, &[0], "p"),
        rule(&[1], 0, &[0, V], "r"),
    ];
    assert_eq!(decode(&two.concat()).map_err(|r| r.number), Err(1));
    // A word too many becomes name bytes.
    good(3, &[rule(&[], 0, &[2, 0, 0x6161_6161], "r")]);
    bad(1, 3, &[rule(&[], 0, &[2, 0, 1], "r")]);
}

#[test]
fn prefix_words() {
    let nested = |n: usize| -> Vec<u32> { [vec![2], vec![1; n - 2], vec![0]].concat() };
    good(3, &[rule(&[], 0, &nested(256), "r")]);
    bad(2, 3, &[rule(&[], 0, &nested(257), "r")]);
    let mut ends = nested(256);
    ends[255] = 1;
    let last_bad = [ends.clone(), vec![99]].concat();
    bad(2, 3, &[rule(&[], 0, &last_bad, "r")]);
    bad(1, 3, &[rule(&[], 0, &ends, "r")]);
    let mut early = nested(300);
    early[9] = 2;
    bad(1, 3, &[rule(&[], 0, &early, "r")]);
    bad(1, 3, &[rule(&[7], 0, &nested(300), "r")]);
}

#[test]
fn nodes_and_steps() {
    good(4, &[words(4, &[1, 2])]);
    bad(1, 4, &[words(4, &[1, 0])]);
    bad(1, 4, &[words(4, &[1, 3])]);
    bad(1, 4, &[words(4, &[1, 1])]);
    bad(1, 4, &[words(4, &[1])]);
    bad(1, 4, &[words(4, &[0, 0])]);
    bad(1, 4, &[words(4, &[3])]);
    good(5, &[words(5, &[0, 1]), words(5, &[1, 1, 0])]);
    bad(1, 5, &[words(5, &[0, 0])]);
    bad(1, 5, &[words(5, &[2, 1])]);
    bad(1, 5, &[words(5, &[1, 1, 0])]);
    bad(1, 5, &[words(5, &[0, 1, 0])]);
    bad(1, 6, &[named(6, 0, "g")]);
    bad(1, 6, &[named(6, 3, "g")]);
    bad(1, 7, &[named(7, 0, "g")]);
}

#[test]
fn cuts_and_abstract() {
    good(8, &[words(8, &[2, 0, 0])]);
    bad(1, 8, &[words(8, &[2, 1])]);
    bad(1, 8, &[words(8, &[1])]);
    bad(1, 8, &[words(8, &[2]), words(8, &[2])]);
    bad(1, 8, &[record(8, &[word(2), vec![0, 0]])]);
    good(9, &[words(9, &[1, 0])]);
    bad(1, 9, &[words(9, &[0, 0])]);
    bad(1, 9, &[words(9, &[2, 0])]);
    bad(1, 9, &[words(9, &[1, 0, 0])]);
    bad(1, 9, &[words(9, &[1, 0]), words(9, &[1, 0])]);
}

#[test]
fn a_pack_that_is_too_long() {
    let refusal = decode(&vec![0; (1 << 24) + 1]).map_err(|r| (r.number, r.place));
    assert_eq!(refusal.map(|_| ()), Err((2, 0)));
    let refusal = decode(&vec![0; 1 << 24]).map_err(|r| (r.number, r.place));
    assert_eq!(refusal.map(|_| ()), Err((1, 0)));
}
