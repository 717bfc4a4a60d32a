//! YAML texts to events and documents: libyaml's scanner, of the crate `unsafe-libyaml`, before the proved parser and
//! loader of the crate [`pokhvizi`].
//!
//! ```
//! use pokhvizi_libyaml::{from_str, Error};
//!
//! let document = from_str("name: box\nsize: [1, 2]\n")?;
//! assert_eq!(document.text_at(&["size", "1"]), Some("2"));
//!
//! let error = from_str("size: [1, 2\nname: box\n").unwrap_err();
//! assert_eq!(
//!     error.to_string(),
//!     "did not find expected ',' or ']' at line 2, column 5; while parsing a flow sequence at line 1, column 7"
//! );
//! assert_eq!(error.expected().to_string(), "',' or ']'");
//!
//! let error = from_str("[*later]").unwrap_err();
//! assert_eq!(error.to_string(), "found undefined alias at line 1, column 2");
//! assert_eq!(error.name(), Some("later"));
//! # Ok::<(), Error>(())
//! ```
//!
//! Nodes are libyaml's: texts, sequences and mappings with tags and marks. No schema is applied: `1` is a text. Keys may
//! stand twice; [`Document::duplicate_key`](pokhvizi::yaml::Document::duplicate_key) finds them. At most [`MAX_DEPTH`]
//! collections may be open, since libyaml's scanner takes time as the square of open flow collections; for another
//! bound, and for other iterators of [`pokhvizi::yaml`], name the [`Scanner`]:
//!
//! ```
//! use pokhvizi::yaml::{limited, ComposedEvents};
//! use pokhvizi_libyaml::Scanner;
//!
//! let events = ComposedEvents::new(limited(Scanner::new(b"[[a]]")?, 1));
//! assert_eq!(events.last().unwrap().unwrap_err().problem(), Some("found too many levels"));
//! # Ok::<(), pokhvizi::yaml::SourceError>(())
//! ```

#![warn(missing_docs)]

mod scanner;

pub use pokhvizi::yaml::{Document, Event, Explained as Error};
use pokhvizi::libyaml_types::yaml_parser_t_prefix;
use pokhvizi::yaml::{limited, Error as Plain, ErrorKind, Limited, Mark, Parser};
pub use scanner::Scanner;
use std::fmt;
use std::iter::FusedIterator;

/// How many collections may be open at once in the functions of this crate.
pub const MAX_DEPTH: usize = 1000;

/// Returns the only document of a text.
///
/// # Errors
///
/// Those of [`documents`]; and a composer's, if there is no document, or another after it.
pub fn from_str(text: &str) -> Result<Document, Error> {
    from_slice(text.as_bytes())
}

/// Returns the only document of a text, as [`from_str`] does.
///
/// # Errors
///
/// Those of [`from_str`].
pub fn from_slice(text: &[u8]) -> Result<Document, Error> {
    let mut documents = documents(text);
    let start = Mark { index: 0, line: 0, column: 0 };
    let document = documents.next().ok_or(composer_error("found no document", start))??;
    match documents.next() {
        None => Ok(document),
        Some(other) => Err(composer_error("found another document", other?.start_mark())),
    }
}

fn composer_error(problem: &'static str, mark: Mark) -> Error {
    Error::from(Plain::from(yaml_parser_t_prefix {
        error: ErrorKind::COMPOSER,
        problem: Some(problem),
        problem_offset: 0,
        problem_value: -1,
        problem_mark: mark,
        context: None,
        context_mark: mark,
    }))
}

/// Returns the documents of a text: each [`Document`], or once the [`Error`] that ends them.
///
/// # Errors
///
/// Of each part, with its place: the scanner, the parser, the composer. They are
/// explained ([`pokhvizi::yaml::Error::explained`]), for which the text is scanned again.
pub fn documents<T: AsRef<[u8]> + ?Sized>(text: &T) -> Documents<'_> {
    Documents(Explained::new(text.as_ref(), pokhvizi::yaml::Documents::new))
}

/// Returns the events of a text: each [`Event`], or once the [`Error`] that ends them.
///
/// # Errors
///
/// The scanner's and the parser's, as of [`documents`].
pub fn events<T: AsRef<[u8]> + ?Sized>(text: &T) -> Events<'_> {
    Events(Explained::new(text.as_ref(), Parser::new))
}

type Source<'a> = Limited<Scanner<'a>>;

/// An iterator over the tokens of a text, or the error that there is no memory for a scanner.
struct Explained<'a, I> {
    text: &'a [u8],
    items: Result<I, Option<Plain>>,
}

impl<'a, I> Explained<'a, I> {
    fn new(text: &'a [u8], items: impl FnOnce(Source<'a>) -> I) -> Self {
        let source = Scanner::new(text).map(|scanner| items(limited(scanner, MAX_DEPTH)));
        let items = source.map_err(|error| Some(Plain::from(error)));
        Explained { text, items }
    }
}

impl<T, I: Iterator<Item = Result<T, Plain>>> Explained<'_, I> {
    fn next(&mut self) -> Option<Result<T, Error>> {
        let items = match &mut self.items {
            Ok(items) => items,
            Err(error) => return error.take().map(|error| Err(error.into())),
        };
        let error = match items.next()? {
            Err(error) => error,
            Ok(item) => return Some(Ok(item)),
        };
        Some(Err(match Scanner::new(self.text) {
            Ok(scanner) => error.explained(limited(scanner, MAX_DEPTH)),
            Err(_) => error.into(),
        }))
    }
}

/// The documents of a text. [`documents`] makes them.
pub struct Documents<'a>(Explained<'a, pokhvizi::yaml::Documents<Source<'a>>>);

/// The events of a text. [`events`] makes them.
pub struct Events<'a>(Explained<'a, Parser<Source<'a>>>);

impl Iterator for Documents<'_> {
    type Item = Result<Document, Error>;

    fn next(&mut self) -> Option<Self::Item> {
        self.0.next()
    }
}

impl Iterator for Events<'_> {
    type Item = Result<Event, Error>;

    fn next(&mut self) -> Option<Self::Item> {
        self.0.next()
    }
}

impl FusedIterator for Documents<'_> {}

impl FusedIterator for Events<'_> {}

impl fmt::Debug for Documents<'_> {
    fn fmt(&self, f: &mut fmt::Formatter<'_>) -> fmt::Result {
        f.debug_struct("Documents").finish_non_exhaustive()
    }
}

impl fmt::Debug for Events<'_> {
    fn fmt(&self, f: &mut fmt::Formatter<'_>) -> fmt::Result {
        f.debug_struct("Events").finish_non_exhaustive()
    }
}
