//! Compares two folders of outputs or tapes, file by file.

use std::fs;
use std::path::Path;

/// What the comparing of two folders found.
pub struct Comparison {
    pub told: Vec<String>,
    pub passed: usize,
    pub failed: usize,
}

/// Compares each file of either folder with the one of the same name in the
/// other, and tells the first difference of each pair.
pub fn compare(one: &Path, other: &Path) -> Result<Comparison, String> {
    let mut names = file_names(one)?;
    names.extend(file_names(other)?);
    names.sort();
    names.dedup();
    let mut comparison = Comparison {
        told: Vec::new(),
        passed: 0,
        failed: 0,
    };
    for name in names {
        match first_difference(&one.join(&name), &other.join(&name)) {
            None => comparison.passed += 1,
            Some(difference) => {
                comparison.failed += 1;
                let tape = name.trim_end_matches(".out");
                comparison.told.push(format!("{tape}: {difference}"));
            }
        }
    }
    Ok(comparison)
}

fn file_names(folder: &Path) -> Result<Vec<String>, String> {
    let unreadable = |error| format!("{} cannot be read: {error}", folder.display());
    let entries = fs::read_dir(folder).map_err(unreadable)?;
    entries
        .map(|entry| {
            let entry = entry.map_err(unreadable)?;
            Ok(entry.file_name().to_string_lossy().into_owned())
        })
        .collect()
}

fn first_difference(one: &Path, other: &Path) -> Option<String> {
    let (one, other) = match (fs::read(one), fs::read(other)) {
        (Ok(one), Ok(other)) => (one, other),
        (Err(_), _) => return Some(format!("{} is missing", one.display())),
        (_, Err(_)) => return Some(format!("{} is missing", other.display())),
    };
    if one == other {
        return None;
    }
    Some(differing_line(&one, &other).unwrap_or("the last line ends otherwise".to_string()))
}

fn differing_line(one: &[u8], other: &[u8]) -> Option<String> {
    let mut lines = one.split(|byte| *byte == b'\n');
    let mut others = other.split(|byte| *byte == b'\n');
    for number in 1.. {
        let (line, opposed) = (lines.next(), others.next());
        if line != opposed {
            return Some(format!(
                "line {number}: `{}` against `{}`",
                said(line),
                said(opposed)
            ));
        }
        line?;
    }
    None
}

fn said(line: Option<&[u8]>) -> String {
    line.map_or_else(
        || "nothing".to_string(),
        |line| String::from_utf8_lossy(line).into_owned(),
    )
}

#[cfg(test)]
mod tests {
    use super::differing_line;

    #[test]
    fn the_first_differing_line_is_told_with_its_number() {
        let told = differing_line(b"set 0\nend\n", b"set 0\nrefused 5\nend\n").unwrap();
        assert_eq!(told, "line 2: `end` against `refused 5`");
        let told = differing_line(b"set 0\n", b"set 0\nend\n").unwrap();
        assert_eq!(told, "line 2: `` against `end`");
        assert_eq!(differing_line(b"end\n", b"end\n"), None);
    }
}
