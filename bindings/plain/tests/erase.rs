//! What the build takes of a file with contracts, and what ends it.

#[path = "../erase.rs"]
mod erase;

use erase::{erase, Crate};

const OF: Crate<'static> = Crate {
    name: "upper",
    all: &["lower", "upper"],
    takes: |module| module != "laws",
    prelude: "",
    tags: &[("A", "u8")],
};

fn plain(text: &str) -> String {
    erase(&OF, text).unwrap().text
}

/// Wants the line of what isn't known.
fn refused(line: usize, text: &str) {
    match erase(&OF, text) {
        Err(unknown) => assert_eq!(unknown.line, line, "{text}: {}", unknown.what),
        Ok(plain) => panic!("{text} gives {}", plain.text),
    }
}

#[test]
fn contracts_are_left_out() {
    let text = "//! A module.\nghost use A.B.{◌≡◌, c};\n\nuse lower::x;\n\n/// Adds { one.\n#[inline]\n\
        #[tactic(auto, using(crate::proofs::A::b))]\npub fn f(a: &[u8], b: u8) -> u8\n    requires some { a ≡ { b } }\n    \
        ensures { (λ d.\n        d) }\n{\n    crate::g('{', \"}\\\"\", b'\\'') // ensures { }\n}\n";
    let wanted = "//! A module.\n\n\nuse crate::lower::x;\n\n/// Adds { one.\n#[inline]\n\npub fn f(a: &[u8], b: u8) -> u8\n\n\n\n{\n    \
        crate::upper::g('{', \"}\\\"\", b'\\'') // ensures { }\n}\n";
    assert_eq!(plain(text), wanted);
}

#[test]
fn what_is_of_the_kit_is_named_there() {
    let text = "use std::alloc::Global;\nuse std::{env, io};\nuse std::io;\nuse std::io::{Read, Write};\n\
        use std::process::ExitCode;\nuse std::fmt;\nuse itoa::Buffer;\nuse memchr::memchr;\n";
    let wanted = "use crate::kit::Global;\nuse crate::kit::{env, io};\nuse crate::kit::io;\nuse crate::kit::io::{Read, Write};\n\
        use crate::kit::process::ExitCode;\nuse core::fmt;\nuse crate::kit::itoa::Buffer;\nuse crate::kit::memchr::memchr;\n";
    assert_eq!(plain(text), wanted);
    let of = Crate { prelude: "String, Vec", ..OF };
    let made = erase(&of, "fn f() {}\n").unwrap().text;
    assert_eq!(made, "fn f() {}\n#[allow(unused_imports)] use crate::kit::{String, Vec};\n");
}

#[test]
fn a_clause_may_quote() {
    let text = "fn f(a: &[u8]) -> bool\n    ensures { a ≡ codes \" }\\n\" }\n{\n    g()\n}\n";
    assert_eq!(plain(text), "fn f(a: &[u8]) -> bool\n\n{\n    g()\n}\n");
    refused(2, "fn f()\n    ensures { a ≡ ' }\n{}\n");
}

#[test]
fn modules_are_taken_or_left_out() {
    let made = erase(
        &OF,
        "mod a;\npub mod laws;\npub use laws::{b,\n    c};\npub use a::d;\n",
    )
    .unwrap();
    assert_eq!(made.text, "mod a;\n\n\n\npub use a::d;\n");
    assert_eq!(made.modules, ["a"]);
}

#[test]
fn functions_for_c_and_displays_are_written_otherwise() {
    assert_eq!(
        plain("#[unsafe(no_mangle)]\npub extern \"C\" fn f() {}\n"),
        "\npub fn f() {}\n"
    );
    let text = "fn fmt<W: fmt::Write>(&self, f: &mut fmt::Formatter<W>) -> fmt::Result {}\n";
    assert_eq!(
        plain(text),
        "fn fmt(&self, f: &mut fmt::Formatter<'_>) -> fmt::Result {}\n"
    );
    assert_eq!(
        plain("use std::fmt;\nlet x = a::std::b;\n"),
        "use core::fmt;\nlet x = a::std::b;\n"
    );
}

#[test]
fn quotes_of_characters_begin_no_string() {
    let text =
        "fn f() -> &'static str { let q = '\"'; let s = \"\n    ghost x = { a };\n\"; let r = b'\"'; s }\n";
    assert_eq!(plain(text), text);
    let text = "fn f() -> u8 { let q = '\"'; let s = \"\nfn\n#[\"; let r = '\"'; 1 }\n";
    assert_eq!(plain(text), text);
    let text = "fn f<'a>(a: &'a u8) -> char\n{\n    match '\\'' { '{' => '\"', _ => '}' }\n}\n";
    assert_eq!(plain(text), text);
}

#[test]
fn drop_is_a_bound_alone() {
    assert_eq!(
        plain("struct S<A: B + Drop>(A) where A: C<u8> + Drop, A: D;\n"),
        "struct S<A: B >(A) where A: C<u8> , A: D;\n"
    );
    assert_eq!(
        plain("pub trait T: a::B + Drop {\n    type C: Copy + Drop;\n}\n"),
        "pub trait T: a::B  {\n    type C: Copy ;\n}\n"
    );
    assert_eq!(
        plain("impl<A: B + Drop> C for D<A> {}\nfn f(a: impl B + Drop) {}\n"),
        "impl<A: B > C for D<A> {}\nfn f(a: impl B ) {}\n"
    );
    for text in [
        "a + Drop",
        "S { x: a + Drop, y: 1 }",
        "if a < b + Drop { 1 } else { 2 }",
        "g(1, a + Drop)",
        "g::<A>(a) + Drop",
    ] {
        refused(2, &format!("fn f(a: u8) -> u8 {{\n    {text} }}\n"));
    }
}

#[test]
fn drop_takes_a_reference_in_its_trait_alone() {
    let text = "impl Drop for S {\n    fn drop(self) {\n        let S { mut a } = self;\n    }\n}\nfn f(S { mut a }: S) {}\n";
    let wanted = text.replace("(self)", "(&mut self)").replacen("mut a", " a", 1);
    assert_eq!(plain(text), wanted);
    let text = "impl<'a, A: B> Drop for S<'a, A> {\n    fn drop(self) {}\n}\n";
    assert_eq!(plain(text), text.replace("(self)", "(&mut self)"));
    refused(2, "impl S {\n    pub fn drop(self) {}\n}\n");
    refused(2, "impl Drop for S {}\nimpl T for S { fn drop(self) {} }\n");
    refused(2, "impl Drop for S {}\ntrait T { fn drop(self); }\n");
}

#[test]
fn words_of_errors_have_braces_with_a_field_alone() {
    refused(
        3,
        "#[derive(Debug, Error)]\npub enum E {\n    #[error(\"{{}}\")]\n    A,\n}\n",
    );
    refused(
        5,
        "#[derive(Error)]\npub enum E {\n}\n#[derive(Error)]\npub enum F {\n}\n",
    );
    refused(2, "#[derive(Error)] enum E {\n#[error(\"x\")]");
    let text = "#[derive(Error)]\nenum E {}\nenum F {}\n";
    assert!(plain(text).contains("for E {") && !plain(text).contains("for F {"));
}

#[test]
fn lifetimes_and_comments_are_none_of_a_quote() {
    let text = "fn f<'a>(a: &'a [u8]) -> &'static str /* { /* \" */ */\n{\n    'x: loop { break 'x; }\n    let _ = '\\u{7B}';\n}\n";
    assert_eq!(plain(text), text);
}

#[test]
fn types_traits_and_errors_are_those_of_rust() {
    let text = "use std::alloc::Global;\nuse thiserror::Error;\n#[derive(Debug, Drop, Error)]\npub enum E {\n    #[error(\"a {0}\")]\n    A(i32),\n    \
        #[error(\"b\")]\n    B,\n}\nimpl Model for E {\n    ghost Value = { ℕ };\n}\n";
    let wanted = "use crate::kit::Global;\n\n#[derive(Debug)]\npub enum E {\n    \n    A(i32),\n    \n    B,\n}\nimpl Model for E {\n\n}\n\
        impl core::fmt::Display for E { fn fmt(&self, f: &mut core::fmt::Formatter<'_>) -> core::fmt::Result { match self { \
        Self::A(field) => write!(f, \"a {0}\", field),Self::B => f.write_str(\"b\"), } } }\nimpl core::error::Error for E {}\n";
    assert_eq!(plain(text), wanted);
    let text = "pub trait T {\n    /// A bound.\n    ghost bound: { Self → ℕ };\n\n    /// A call.\n    fn f(&self) -> u8\n        ensures { a }\n\n    \
        fn g<S: T + Drop>(&self)\n        ensures { b };\n}\n";
    let wanted =
        "pub trait T {\n\n\n\n    /// A call.\n    fn f(&self) -> u8;\n\n\n    fn g<S: T >(&self)\n;\n}\n";
    assert_eq!(plain(text), wanted);
    let text = "impl Drop for S {\n    fn drop(self) {\n        let S { mut a, b: _ } = self;\n    }\n}\n";
    assert_eq!(
        plain(text),
        text.replace("(self)", "(&mut self)").replace("mut a", " a")
    );
    assert_eq!(
        plain("pub use lower::{\n    laws as lower_laws, a,\n};\npub use other::laws as b;\n"),
        "pub use crate::lower::{\n     a,\n};\n\n"
    );
}

#[test]
fn enums_get_the_tags_that_are_asked_for() {
    let text = "/// An enum A.\n#[derive(Debug, Drop)]\npub(crate) enum A {\n    B(u8),\n}\n\npub enum B {\n    A,\n}\n";
    let wanted = "/// An enum A.\n#[derive(Debug)]\n#[repr(u8)] pub(crate) enum A {\n    B(u8),\n}\n\npub enum B {\n    A,\n}\n";
    assert_eq!(plain(text), wanted);
}

#[test]
fn what_is_unknown_ends_the_build() {
    refused(2, "fn f() {\n    ghost let x = 1;\n}\n");
    refused(1, "ghost fn f() {}\n");
    refused(2, "fn f() {\n    requires { a }\n}\n");
    refused(3, "fn f() {\n    while a\n        invariant { b }\n    {}\n}\n");
    refused(2, "fn f()\n    measure { a }\n{}\n");
    refused(2, "fn f()\n    ensures { \"} }\n{}\n");
    refused(
        2,
        "fn f()\n    ensures { a -- b }\n    ensures { // c }\n{}\n"
            .replace("a -- b", "'")
            .as_str(),
    );
    refused(2, "impl T for S {\n    ghost A = { x -- {\n    };\n    fn f(&self) -> u8 { 1 }\n    ghost B = { y -- }\n    };\n}\n");
    refused(2, "fn f()\n    ensures { x -- {\n    }\n{}\n");
    refused(1, "fn f() { debug_assert !(a) }\n");
    refused(1, "macro_rules ! a {}\n");
    refused(1, "const A: &CStr = cr\"a\";\n");
    refused(1, "pub(crate) mod b { }\n");
    assert_eq!(
        plain("fn f() { if !a { return !b } while !c {} a != b }\n"),
        "fn f() { if !a { return !b } while !c {} a != b }\n"
    );
    refused(2, "fn f()\n    ensures two names { a }\n{}\n");
    refused(2, "fn f()\n    ensures { a } {\n}\n");
    refused(2, "fn f()\n    ensures { a\n{}\n");
    refused(2, "fn f() {\n    prove!(a);\n}\n");
    refused(2, "fn f() {\n    unsafe { a() }\n}\n");
    refused(1, "#[model]\nfn f() {}\n");
    refused(1, "#[derive(Copy, Model)]\nstruct S;\n");
    refused(2, "impl A for B {\n    ghost view = { a } b;\n}\n");
    refused(1, "impl Drop for B { fn drop(mut self) {} }\n");
    refused(1, "mod a { }\n");
    refused(1, "extern \"C\" { }\n");
    refused(1, "const A: &str = r\"a\";\n");
    refused(2, "\nconst A: &str = \"a;\n");
    refused(2, "\n/* a\n");
    refused(2, "fn f(\n    a: λ) {}\n".replace('λ', "≡").as_str());
    refused(1, "fn fmt<W: Write>(&self) {}\n");
}
