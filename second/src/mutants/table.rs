//! The table of changes: blocks of four lines (name, file, old, new). Lines
//! with # are remarks.

/// A change at one place.
pub struct Change {
    pub name: String,
    pub file: String,
    pub old: String,
    pub new: String,
}

pub fn parse(table: &str) -> Result<Vec<Change>, String> {
    let mut changes = Vec::new();
    let mut lines = table.lines().filter(|line| !line.is_empty() && !line.starts_with('#'));
    while let Some(line) = lines.next() {
        let name = value(line, "name: ")?;
        let file = value(lines.next().unwrap_or(""), "file: ")?;
        let old = value(lines.next().unwrap_or(""), "old: ")?;
        let new = value(lines.next().unwrap_or(""), "new: ")?;
        changes.push(Change { name, file, old, new });
    }
    Ok(changes)
}

fn value(line: &str, word: &str) -> Result<String, String> {
    let value = line.strip_prefix(word);
    Ok(value.ok_or(format!("expected \"{word}\", found \"{line}\""))?.to_string())
}
