//! The program `yamltokens` by rustc: over the lists of `crates/vectors` and those of `data/runs` it writes
//! the bytes that stand there, with the status and the error output.

use std::fs;
use std::io::Write;
use std::path::{Path, PathBuf};
use std::process::{Command, Output, Stdio};

/// Where the files of runs are.
const RUNS: &str = "bindings/plain/tests/data/runs";

fn data(folder: &str) -> PathBuf {
    Path::new(env!("CARGO_MANIFEST_DIR")).join(folder)
}

/// Runs the program with these words over these token lines.
fn run(words: &[&str], tokens: &[u8], output: Stdio) -> Output {
    let mut program = Command::new(env!("CARGO_BIN_EXE_yamltokens"));
    let program = program.args(words).stdin(Stdio::piped()).stdout(output).stderr(Stdio::piped());
    let mut running = program.spawn().unwrap();
    let mut input = running.stdin.take().unwrap();
    let tokens = tokens.to_vec();
    // It ends without reading all that it is given, if it has to.
    let writing = std::thread::spawn(move || input.write_all(&tokens));
    let output = running.wait_with_output().unwrap();
    let _ = writing.join().unwrap();
    output
}

/// Wants these bytes on standard output and this error output, and status 1 after an error, else 0.
fn wants(name: &str, word: &str, tokens: &[u8], wanted: &[u8]) {
    let Output { status, stdout, stderr } = run(&[word], tokens, Stdio::piped());
    let has_error = wanted.split(|byte| *byte == b'\n').any(|line| line.starts_with(b"FAULT "));
    assert!(stdout == wanted, "{name}: {}", String::from_utf8_lossy(&stdout));
    assert_eq!(status.code(), Some(i32::from(has_error)), "{name}");
    assert!(stderr.is_empty(), "{name}: {}", String::from_utf8_lossy(&stderr));
}

fn runs_of(folder: &Path) -> usize {
    let mut runs = 0;
    for entry in fs::read_dir(folder).unwrap() {
        let file = entry.unwrap().path();
        if file.is_dir() {
            runs += runs_of(&file);
        }
        if file.extension().map_or(true, |ending| ending != "tokens") {
            continue;
        }
        let tokens = fs::read(&file).unwrap();
        for word in ["events", "nodes"] {
            let wanted = file.with_extension(word);
            if let Ok(bytes) = fs::read(&wanted) {
                wants(&wanted.display().to_string(), word, &tokens, &bytes);
                runs += 1;
            }
        }
    }
    runs
}

#[test]
fn lists_give_their_lines() {
    let runs = runs_of(&data("crates/vectors/data")) + runs_of(&data(RUNS));
    assert!(runs >= 328, "only {runs} runs");
}

/// A worked example is a line: its name, the status, the tokens, the output, the error output, the words.
#[test]
fn worked_examples_give_their_status_and_both_outputs() {
    let data = data(RUNS);
    let read = |name: &str| match name {
        "-" => Vec::new(),
        _ => fs::read(data.join("lists").join(name)).unwrap(),
    };
    let worked = fs::read_to_string(data.join("worked")).unwrap();
    for line in worked.lines() {
        let (head, _) = line.split_once(':').unwrap();
        let mut fields = head.split(' ').filter(|field| !field.is_empty());
        let mut next = || fields.next().unwrap();
        let (name, status, tokens, output, errors) = (next(), next(), next(), next(), next());
        let words: Vec<&str> = fields.collect();
        if output == "full" && !cfg!(target_os = "linux") {
            continue;
        }
        let to = match output {
            "full" => fs::File::create("/dev/full").unwrap().into(),
            _ => Stdio::piped(),
        };
        let said = run(&words, &read(tokens), to);
        assert_eq!(said.status.code(), Some(status.parse().unwrap()), "{name}");
        let wanted = read(if output == "full" { "-" } else { output });
        assert!(said.stdout == wanted, "{name}: {}", String::from_utf8_lossy(&said.stdout));
        assert!(said.stderr == read(errors), "{name}: {}", String::from_utf8_lossy(&said.stderr));
    }
    assert!(worked.lines().count() >= 38, "only {} worked examples", worked.lines().count());
}

#[test]
fn each_bad_line_is_refused_and_each_good_line_is_read() {
    let data = data(RUNS);
    for (lines, wanted, count) in [("bad_lines", "bad_line.events", 54), ("good_lines", "good_line.events", 37)] {
        let (lines, wanted) = (fs::read(data.join(lines)).unwrap(), fs::read(data.join(wanted)).unwrap());
        let lines: Vec<&[u8]> = lines.strip_suffix(b"\n").unwrap_or(&lines).split(|byte| *byte == b'\n').collect();
        assert!(lines.len() >= count, "only {} lines", lines.len());
        for line in lines {
            let name = String::from_utf8_lossy(line).into_owned();
            for end in [&b"\n"[..], &[]] {
                if line.is_empty() && end.is_empty() {
                    continue;
                }
                // After it 100 bytes more: the line lies whole in the reader's buffer.
                for rest in [&[][..], &[b'x'; 100]] {
                    let tokens = [line, end, if end.is_empty() { &[] } else { rest }].concat();
                    wants(&name, "events", &tokens, &wanted);
                }
            }
        }
    }
}

/// A line of 1,048,576 bytes is read, and one of a byte more is not.
#[test]
fn the_longest_line_is_read() {
    let data = data(RUNS);
    for (name, length) in [("longest_line", 1_048_550), ("longer_line", 1_048_551)] {
        let text = "a".repeat(length);
        let tokens = format!("STREAM-START 0:0:0 1:0:1 utf8\nSCALAR 2:0:2 3:0:3 ={text} plain\nSTREAM-END 4:0:4 5:0:5\n");
        for word in ["events", "nodes"] {
            let wanted = fs::read_to_string(data.join(format!("{name}.{word}"))).unwrap();
            wants(name, word, tokens.as_bytes(), wanted.replace('@', &text).as_bytes());
        }
    }
}
