//! The files of test vectors.

use std::fs;
use std::path::PathBuf;

/// The folders of lists in `crates/vectors/data`.
pub const TABLES: [&str; 6] = ["worked", "productions", "loads", "libyaml_differs", "suite", "real"];

/// Where the files are of which this is the path from the clone's top folder.
pub fn path_of(path: &str) -> PathBuf {
    PathBuf::from(env!("CARGO_MANIFEST_DIR")).join(path)
}

/// The text of a file.
pub fn text_of(path: &str) -> String {
    fs::read_to_string(path_of(path)).unwrap_or_else(|error| panic!("{path}: {error}"))
}

/// A list of tokens: its folder, its name, the endings of its files besides `tokens`, and its token lines.
pub struct List {
    pub table: &'static str,
    pub name: String,
    pub endings: Vec<String>,
    pub tokens: String,
}

impl List {
    /// The text of the file of this ending.
    pub fn text(&self, ending: &str) -> String {
        text_of(&format!("crates/vectors/data/{}/{}.{ending}", self.table, self.name))
    }
}

/// The lists of these folders, in the order of each `index`, whose lines are `NAME ENDING..: what it shows`.
pub fn lists_of(tables: &[&'static str]) -> Vec<List> {
    let mut lists = Vec::new();
    for &table in tables {
        for line in text_of(&format!("crates/vectors/data/{table}/index")).lines() {
            let (names, _) = line.split_once(": ").unwrap();
            let mut words = names.split(' ').map(String::from);
            let name = words.next().unwrap();
            let endings = ["events", "nodes"].map(String::from).into_iter().chain(words).collect();
            let tokens = text_of(&format!("crates/vectors/data/{table}/{name}.tokens"));
            lists.push(List { table, name, endings, tokens });
        }
    }
    lists
}

/// A test vector of a file that has a line `# TABLE` before each table, and the test vectors in lines
/// `NAME|FIELD|..|WANTED`.
pub struct Row<'a> {
    pub table: &'a str,
    pub name: &'a str,
    pub fields: Vec<&'a str>,
    pub wanted: &'a str,
}

impl Row<'_> {
    /// The number in a field.
    pub fn number<N: std::str::FromStr>(&self, field: usize) -> N {
        self.fields[field].parse().ok().unwrap_or_else(|| panic!("{}: no number", self.name))
    }
}

/// The test vectors of a file's text.
pub fn rows_of(text: &str) -> Vec<Row<'_>> {
    let (mut rows, mut table) = (Vec::new(), "");
    for line in text.lines() {
        if let Some(name) = line.strip_prefix("# ") {
            table = name;
            continue;
        }
        let mut fields: Vec<&str> = line.split('|').collect();
        let (name, wanted) = (fields.remove(0), fields.pop().unwrap_or(""));
        rows.push(Row { table, name, fields, wanted });
    }
    rows
}
