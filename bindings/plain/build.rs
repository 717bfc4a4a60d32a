//! Makes plain Rust of the proved crates, into OUT_DIR: their source text, without contracts.

mod erase;

use erase::{erase, Crate};
use std::path::{Path, PathBuf};
use std::process::{self, Command};
use std::{env, fs};

/// The crates, lowest first: what C's library is made of, and with the feature `alloc` the parser with texts,
/// documents and the loader.
const CRATES: [&str; 7] = [
    "libyaml_types",
    "libyaml_automaton",
    "libyaml_composer",
    "token_steps",
    "document_steps",
    "document_sizes",
    "pokhvizi_c",
];
const WITH_TEXTS: [&str; 8] = [
    "libyaml_documents",
    "libyaml_events",
    "libyaml_loader",
    "unsafe_libyaml",
    "yaml_path",
    "yaml_expansion",
    "yaml_keys",
    "token_limits",
];
/// With the feature `std` also what reads and writes lines.
const WITH_LINES: [&str; 3] = ["line_reading", "line_writing", "token_lines"];

/// Crates that tests alone use: `for_tests.rs` beside `crates.rs` has them as modules of a program that names the
/// others.
const FOR_TESTS: [&str; 2] = ["yaml_bounds", "example_theorems"];

/// Enums with fields that are looked at for each token or event. Without a tag of their own rustc says their
/// variant by what another field never is, and computes it at each look, or packs it into a number with the
/// fields and no longer sees which variant a caller is given.
const TAGS: [(&str, &str); 2] = [("Taken", "u8"), ("unnamed_yaml_event_t_data", "u64")];

/// What rustc would warn of in the proved crates, which another compiler checks.
const ALLOWED: &str = "#[allow(non_camel_case_types, missing_docs, unused, clippy::all)]\n";

fn fail(file: &Path, line: usize, what: &str) -> ! {
    eprintln!("{}:{line}: {what}", file.display());
    process::exit(1);
}

/// Ends the build, in words, where rustc is older than the feature `alloc` needs.
fn require_new_rustc() {
    let said = Command::new(env::var_os("RUSTC").expect("RUSTC")).arg("--version").output();
    let said = said.map(|said| String::from_utf8_lossy(&said.stdout).into_owned()).unwrap_or_default();
    let minor = said.strip_prefix("rustc 1.").and_then(|rest| rest.split('.').next()?.parse::<u32>().ok());
    if matches!(minor, Some(0..=80)) {
        eprintln!("the features `std` (the default) and `alloc` need rustc 1.81 or later; this is {}", said.trim());
        process::exit(1);
    }
}

/// Without `alloc` only the types without texts are taken. Nothing calls what is in `laws`.
fn takes_of_types(module: &str) -> bool {
    ["enums", "mark"].contains(&module)
}

/// Of the example only its source.
fn takes_of_theorems(module: &str) -> bool {
    module == "letters"
}

fn takes(module: &str) -> bool {
    module != "laws"
}

/// Writes the plain Rust of a file, and of the modules that it declares.
fn write(of: &Crate<'_>, from: &Path, to: &Path, below: (&Path, &Path)) {
    println!("cargo:rerun-if-changed={}", from.display());
    let text = fs::read_to_string(from).unwrap_or_else(|error| fail(from, 0, &error.to_string()));
    // A checkout on Windows may have other ends of lines.
    let text = text.replace("\r\n", "\n");
    let plain = erase(of, &text).unwrap_or_else(|unknown| fail(from, unknown.line, &unknown.what));
    let made = fs::create_dir_all(below.1).and_then(|()| fs::write(to, plain.text));
    made.unwrap_or_else(|error| fail(to, 0, &error.to_string()));
    for module in plain.modules {
        let (from, to) = (
            below.0.join(format!("{module}.rt")),
            below.1.join(format!("{module}.rs")),
        );
        write(of, &from, &to, (&below.0.join(&module), &below.1.join(&module)));
    }
}

/// What the text of a crate is given by the library of the prover, which has it in each file.
fn prelude_of(name: &str, has_alloc: bool) -> &'static str {
    if WITH_LINES.contains(&name) {
        "AllocGlobal, HostRuntime, String, Vec"
    } else if has_alloc && (name == "libyaml_types" || WITH_TEXTS.contains(&name) || FOR_TESTS.contains(&name)) {
        "String, Vec"
    } else {
        ""
    }
}

/// Writes the plain Rust of crates, of all these, and the file that has them as modules.
fn write_list(list: &str, crates: &[&str], all: &[&str], has_alloc: bool) {
    let [top, out] =
        ["CARGO_MANIFEST_DIR", "OUT_DIR"].map(|name| PathBuf::from(env::var_os(name).expect(name)));
    let mut modules = String::new();
    for name in crates {
        let takes = match *name {
            "libyaml_types" if !has_alloc => takes_of_types,
            "example_theorems" => takes_of_theorems,
            _ => takes,
        };
        let (from, to) = (top.join("crates").join(name).join("src"), out.join(name));
        let prelude = prelude_of(name, has_alloc);
        let of = Crate { name, all, takes, prelude, tags: &TAGS };
        write(&of, &from.join("lib.rt"), &to.join("mod.rs"), (&from, &to));
        modules += ALLOWED;
        modules += &format!("#[path = {:?}]\npub mod {name};\n", to.join("mod.rs"));
    }
    let list = out.join(list);
    fs::write(&list, modules).unwrap_or_else(|error| fail(&list, 0, &error.to_string()));
}

fn main() {
    let [has_alloc, has_std] = ["ALLOC", "STD"].map(|name| env::var_os(format!("CARGO_FEATURE_{name}")).is_some());
    if has_alloc {
        require_new_rustc();
    }
    let with_texts = if has_alloc { &WITH_TEXTS[..] } else { &[] };
    let with_lines = if has_std { &WITH_LINES[..] } else { &[] };
    let crates = [&CRATES, with_texts, with_lines].concat();
    write_list("crates.rs", &crates, &crates, has_alloc);
    if has_std {
        write_list("for_tests.rs", &FOR_TESTS, &[&crates[..], &FOR_TESTS].concat(), has_alloc);
    }
}
