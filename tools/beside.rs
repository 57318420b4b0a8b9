//! For build scripts: lines put into the original's source, each beside a line of it that
//! must be there exactly once. Nothing of it is changed or left out.

pub enum Where {
    Behind,
    Ahead,
}

/// The source with these: where, the line beside which it goes, and the new line.
pub fn put_beside<'a>(
    source: &str,
    new: impl IntoIterator<Item = (&'a Where, &'a str, &'a str)>,
) -> Result<String, String> {
    let mut lines: Vec<&str> = source.lines().collect();
    for (place, anchor, line) in new {
        let at: Vec<usize> = (0..lines.len()).filter(|&i| lines[i] == anchor).collect();
        let [i] = at[..] else {
            return Err(format!("{} lines `{}`, not one", at.len(), anchor.trim()));
        };
        let i = match place {
            Where::Behind => i + 1,
            Where::Ahead => i,
        };
        lines.insert(i, line);
    }
    Ok(lines.join("\n") + "\n")
}
