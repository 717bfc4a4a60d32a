//! Runs of the program by the words of its command line, and what is told without a run. Each line of the file
//! `worked` has a name, the exit status, what is read, what has to be written, what is told to the user, and
//! the words; and after a colon what it shows. `program.rs` makes the same runs of the program.

use crate::lines::pieces::{PieceReader, PieceWriter, EVERY_CALL};
use crate::{read, read_text, rows};
use pokhvizi::kit::{Global, String as Text};
use pokhvizi::token_lines::command::{no_memory, refuse_words, run_words};
use std::io::{Read, Write};

/// The exit status of words that ask for no run, for which nothing is read.
const REFUSED: u8 = 2;

/// A run: the words, what is read, how many calls the output takes, and what has to come of it.
struct Command {
    name: String,
    words: Vec<Text>,
    input: Vec<u8>,
    calls: usize,
    status: u8,
    output: Vec<u8>,
    errors: Vec<u8>,
}

/// The bytes of a file of `lists`, or none if it is named `-` or `full`.
fn read_list(name: &str) -> Vec<u8> {
    match name {
        "-" | "full" => Vec::new(),
        _ => read(&format!("lists/{name}")),
    }
}

impl Command {
    /// The run of a line. An output named `full` takes nothing.
    fn of(line: &str) -> Command {
        let (fields, _) = line.split_once(": ").unwrap();
        let fields: Vec<&str> = fields.split(' ').collect();
        let [name, status, input, output, errors, words @ ..] = &fields[..] else {
            panic!("{line}");
        };
        Command {
            name: name.to_string(),
            words: words.iter().map(|word| Text::from(word.to_string())).collect(),
            input: read_list(input),
            calls: if *output == "full" { 0 } else { EVERY_CALL },
            status: status.parse().unwrap(),
            output: read_list(output),
            errors: read_list(errors),
        }
    }

    /// The run has its status and output, and reads nothing if its words are refused.
    fn assert_run(&self, errors: &mut impl Write) {
        let mut output = PieceWriter::new(EVERY_CALL, self.calls);
        let mut reader = PieceReader::new(&self.input, EVERY_CALL, EVERY_CALL);
        let status = run_words(Global, &self.words, &mut reader, &mut output, errors);
        assert_eq!(status, self.status, "{}", self.name);
        assert!(output.written == self.output, "{}: {}", self.name, String::from_utf8_lossy(&output.written));
        let mut left = Vec::new();
        reader.read_to_end(&mut left).unwrap();
        assert!(status != REFUSED || left == self.input, "{}: words are refused, and bytes read", self.name);
    }

    /// The run is right and tells its line, and is right where that can't be written.
    fn assert_right(&self) {
        let mut errors = Vec::new();
        self.assert_run(&mut errors);
        assert!(errors == self.errors, "{}: {}", self.name, String::from_utf8_lossy(&errors));
        self.assert_run(&mut PieceWriter::new(1, 0));
    }
}

#[test]
fn worked_runs_have_their_status_and_outputs() {
    let worked = read_text("worked");
    assert!(worked.lines().count() >= 38, "only {} runs", worked.lines().count());
    worked.lines().for_each(|line| Command::of(line).assert_right());
}

/// Words that no line of `worked` can have are refused before anything is read or written.
#[test]
fn other_words_are_refused() {
    for row in rows("words that are refused", 2) {
        let mut command = Command::of("refused 2 implicit_document.tokens - usage.errors: no word");
        command.words.push(Text::from(row.name.to_string()));
        command.assert_right();
    }
}

/// What is told without a run has its status also where nothing can be told.
#[test]
fn what_is_told_without_a_run() {
    fn tell(name: &str, errors: &mut impl Write) -> u8 {
        match name {
            "no memory" => no_memory(errors),
            _ => refuse_words(errors),
        }
    }
    for row in rows("what is told without a run", 2) {
        let mut errors = Vec::new();
        assert_eq!(tell(row.name, &mut errors), row.number(0), "{}", row.name);
        assert!(errors == read_list(row.wanted), "{}: {}", row.name, String::from_utf8_lossy(&errors));
        assert_eq!(tell(row.name, &mut PieceWriter::new(1, 0)), row.number(0), "{}", row.name);
    }
}
