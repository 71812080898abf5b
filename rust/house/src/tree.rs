//! The files of the repository, read once. A test may change some of them in memory.

use std::collections::BTreeMap;
use std::fs;
use std::path::Path;

/// Every file by its path from the top, without what `rt`, cargo and git made.
#[derive(Clone)]
pub struct Tree {
    files: BTreeMap<String, String>,
}

const MADE: [&str; 2] = [".git", "target"];

/// The prover's work: `crates/NAME/out`, some gigabytes. A folder of that name anywhere else is read.
fn is_out(path: &str) -> bool {
    let mut parts = path.split('/');
    let ends = (parts.next(), parts.nth(1), parts.next());
    ends == (Some("crates"), Some("out"), None)
}

impl Tree {
    /// The repository that this package stands in.
    pub fn read() -> Tree {
        let top = Path::new(env!("CARGO_MANIFEST_DIR")).join("../..");
        let mut files = BTreeMap::new();
        walk(&top, "", &mut files);
        Tree { files }
    }

    pub fn text(&self, path: &str) -> Option<&str> {
        self.files.get(path).map(String::as_str)
    }

    /// Whether there is such a file, or a folder with a file in it.
    pub fn has(&self, path: &str) -> bool {
        let folder = format!("{}/", path.trim_end_matches('/'));
        self.files.contains_key(path) || self.files.keys().any(|file| file.starts_with(&folder))
    }

    /// The paths that begin and end so.
    pub fn paths<'a>(&'a self, start: &'a str, end: &'a str) -> impl Iterator<Item = &'a str> {
        let fits = move |path: &&str| path.starts_with(start) && path.ends_with(end);
        self.files.keys().map(String::as_str).filter(fits)
    }

    /// The same tree with another text in one file.
    pub fn with(&self, path: &str, text: String) -> Tree {
        let mut files = self.files.clone();
        files.insert(path.to_string(), text);
        Tree { files }
    }

    pub fn without(&self, path: &str) -> Tree {
        let mut files = self.files.clone();
        files.remove(path);
        Tree { files }
    }
}

fn walk(folder: &Path, at: &str, files: &mut BTreeMap<String, String>) {
    let entries =
        fs::read_dir(folder).unwrap_or_else(|error| panic!("{}: {error}", folder.display()));
    for entry in entries {
        let entry = entry.unwrap();
        let name = entry.file_name().into_string().unwrap();
        let path = format!("{at}{name}");
        if entry.file_type().unwrap().is_dir() {
            if !MADE.contains(&name.as_str()) && !is_out(&path) {
                walk(&entry.path(), &format!("{path}/"), files);
            }
        } else {
            let bytes = fs::read(entry.path()).unwrap();
            files.insert(path, String::from_utf8_lossy(&bytes).into_owned());
        }
    }
}

/// The text between two marks, from the first place where the first one stands.
pub fn between<'a>(text: &'a str, from: &str, to: &str) -> Option<&'a str> {
    let start = text.find(from)? + from.len();
    let length = text[start..].find(to)?;
    Some(&text[start..start + length])
}

#[cfg(test)]
mod tests {
    use super::*;

    #[test]
    fn what_is_left_out() {
        assert!(is_out("crates/mac/out"));
        for path in ["out", "crates/out", "crates/mac/src/out", "rust/house/out"] {
            assert!(!is_out(path), "{path}");
        }
    }
}
