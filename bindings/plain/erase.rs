//! Makes plain Rust of a file with contracts: each line of the result is the same line of the file, without
//! what only the prover reads.
//!
//! What is left out: `ghost` items, the clauses `requires { .. }` and `ensures { .. }` of a function's head,
//! the attributes `#[tactic(..)]`, the mark `Drop` of types whose values may be let go, and modules of laws.
//! What is written otherwise: paths that begin at a crate begin at its module, `std` is `core` or this
//! crate's `kit`, a `Display` has no type parameter for its writer, an error has its `Display` without
//! `thiserror`, `drop` takes a reference, and a function for C is one for Rust. What is added: the type of an
//! enum's tag, which changes where rustc puts it, and nothing else. Everything else is left as it is. Whatever
//! this doesn't know ends the build, with its line.

/// What is made of a crate.
pub struct Crate<'a> {
    /// Its name, which is that of its module.
    pub name: &'a str,
    /// The names of all crates.
    pub all: &'a [&'a str],
    /// Whether a module of it is taken.
    pub takes: fn(&str) -> bool,
    /// What it needs no import for, of the module `kit`.
    pub prelude: &'a str,
    /// Enums with fields, each with the type of the tag that says its variant.
    pub tags: &'a [(&'a str, &'a str)],
}

/// Plain Rust, and the modules of other files that it declares.
pub struct Plain {
    pub text: String,
    pub modules: Vec<String>,
}

/// What isn't known, and the number of its line.
#[derive(Debug, PartialEq)]
pub struct Unknown {
    pub line: usize,
    pub what: String,
}

const ATTRIBUTES: [&str; 4] = ["cold", "derive", "inline", "repr"];
const DERIVES: [&str; 9] = [
    "Clone",
    "Copy",
    "Debug",
    "Default",
    "Eq",
    "Hash",
    "Ord",
    "PartialEq",
    "PartialOrd",
];
/// Derived by the prover's compiler alone.
const OWN_DERIVES: [&str; 2] = ["Drop", "Error"];
const MACROS: [&str; 5] = ["ascii_set", "matches", "unreachable", "write", "writeln"];
/// Words after which a `!` stands that is `not`.
const BEFORE_NOT: [&str; 7] = ["break", "if", "in", "match", "move", "return", "while"];
/// The modules of `std` whose items are those of `kit`, and those that are modules of it.
const KIT: [&str; 4] = ["alloc", "collections", "marker", "vec"];
const WITHIN_KIT: [&str; 5] = ["env", "io", "process", "rt", "simd"];
/// The crates of the prover's library whose items are those of `kit`.
const PORTED: [&str; 3] = ["itoa", "memchr", "percent_encoding"];
/// Words of the prover's, and Rust's that need a look first.
const RESERVED: [&str; 7] = ["asm", "assume", "ghost", "ensures", "prove", "requires", "unsafe"];

#[derive(Clone, Copy, PartialEq)]
enum Kind {
    /// White space or a comment.
    Space,
    Word,
    /// A number, a string, a character or a lifetime.
    Value,
    /// One other character.
    Mark,
}

#[derive(Clone, Copy)]
struct Piece<'a> {
    kind: Kind,
    text: &'a str,
    line: usize,
}

fn unknown<T>(line: usize, what: &str) -> Result<T, Unknown> {
    Err(Unknown {
        line,
        what: what.to_string(),
    })
}

/// How many bytes a comment has that `text` begins with, or nothing if it has no end.
fn comment(text: &str) -> Option<usize> {
    if text.starts_with("//") {
        return Some(text.find('\n').unwrap_or(text.len()));
    }
    let (mut depth, mut place) = (0, 0);
    loop {
        let rest = &text[place..];
        if rest.starts_with("/*") {
            (depth, place) = (depth + 1, place + 2);
        } else if rest.starts_with("*/") {
            (depth, place) = (depth - 1, place + 2);
        } else {
            place += rest.chars().next()?.len_utf8();
        }
        if depth == 0 {
            return Some(place);
        }
    }
}

/// How many bytes a string or a character has that `text` begins with, from its quote on, or nothing if it
/// has no end.
fn quoted(text: &str, quote: char) -> Option<usize> {
    let mut is_escaped = false;
    for (place, c) in text.char_indices().skip(1) {
        match c {
            _ if is_escaped => is_escaped = false,
            '\\' => is_escaped = true,
            c if c == quote => return Some(place + 1),
            _ => {}
        }
    }
    None
}

/// How many bytes a character or a lifetime has that `text` begins with; of a character without an end its quote alone.
fn character(text: &str) -> usize {
    let named = text[1..].find(|c| !is_of_word(c)).unwrap_or(text.len() - 1);
    match named > 0 && !text[1 + named..].starts_with('\'') {
        true => 1 + named,
        false => quoted(text, '\'').unwrap_or(1),
    }
}

fn is_of_word(c: char) -> bool {
    c.is_alphanumeric() || c == '_'
}

/// Splits Rust into pieces. A raw string is none that this knows.
fn pieces(text: &str) -> Result<Vec<Piece<'_>>, Unknown> {
    let (mut pieces, mut place, mut line) = (Vec::new(), 0, 1);
    while let Some(c) = text[place..].chars().next() {
        let rest = &text[place..];
        let word = rest.find(|c| !is_of_word(c)).unwrap_or(rest.len());
        let (kind, length) = if rest.starts_with("//") || rest.starts_with("/*") {
            (Kind::Space, comment(rest))
        } else if c.is_whitespace() {
            (
                Kind::Space,
                Some(rest.find(|c: char| !c.is_whitespace()).unwrap_or(rest.len())),
            )
        } else if ["r", "br", "cr"]
            .iter()
            .filter_map(|before| rest.strip_prefix(before))
            .any(|rest| rest.starts_with(['"', '#']))
        {
            return unknown(line, "a raw string or name");
        } else if c == '"' || rest.starts_with("b\"") || rest.starts_with("c\"") {
            let before = usize::from(c != '"');
            (
                Kind::Value,
                quoted(&rest[before..], '"').map(|length| length + before),
            )
        } else if c == '\'' {
            (Kind::Value, Some(character(rest)).filter(|&length| length > 1))
        } else if rest.starts_with("b'") {
            (Kind::Value, quoted(&rest[1..], '\'').map(|length| length + 1))
        } else if c.is_ascii_digit() {
            (Kind::Value, Some(word))
        } else if is_of_word(c) {
            (Kind::Word, Some(word))
        } else if c.is_ascii_punctuation() {
            (Kind::Mark, Some(1))
        } else {
            return unknown(line, &format!("the character {c:?} outside of a clause"));
        };
        let Some(length) = length else {
            return unknown(line, "a comment or a quote without an end");
        };
        pieces.push(Piece {
            kind,
            text: &rest[..length],
            line,
        });
        line += rest[..length].matches('\n').count();
        place += length;
    }
    Ok(pieces)
}

/// Writes over what only the prover reads: `ghost` items, clauses and `tactic` attributes. Lines stay where
/// they are. These are found before Rust is split into pieces, since the prover's text has another form.
fn without_ghosts(text: &str) -> Result<String, Unknown> {
    let mut out = String::with_capacity(text.len());
    let (mut place, mut line) = (0, 1);
    // Within a function's head, and whether something stands on the line yet.
    let (mut is_head, mut is_start) = (false, true);
    let mut depth = 0usize;
    while let Some(c) = text[place..].chars().next() {
        let rest = &text[place..];
        let word = rest.find(|c| !is_of_word(c)).unwrap_or(rest.len());
        // A trait's function may have no body, and then no semicolon either.
        if is_head
            && is_start
            && depth == 0
            && ["}", "///", "fn ", "#["]
                .iter()
                .any(|next| rest.starts_with(next))
        {
            out.insert(out.trim_end().len(), ';');
            is_head = false;
        }
        let (length, is_kept) = match &rest[..word] {
            _ if rest.starts_with("//") || rest.starts_with("/*") => (comment(rest), true),
            _ if c == '"' => (quoted(rest, '"'), true),
            _ if c == '\'' => (Some(character(rest)), true),
            "ghost" => {
                if !is_start || is_head {
                    return unknown(line, "a ghost item that isn't on a line of its own");
                }
                if !rest.starts_with("ghost use ") {
                    leave_out_comment(&mut out);
                }
                (ghost_end(rest), false)
            }
            "requires" | "ensures" => {
                if !is_head || !is_start || depth != 0 {
                    return unknown(
                        line,
                        "a clause that isn't on a line of its own in a function's head",
                    );
                }
                (clause_end(rest), false)
            }
            _ if is_start && (rest.starts_with("#[tactic(") || rest.starts_with("#![tactic(")) => {
                let (open, close) = (rest.find('('), rest.find(")]"));
                let end = open.and(close).map(|end| end + 2);
                (
                    end.filter(|&end| !rest[..end].contains('\n') && is_balanced(&rest[..end])),
                    false,
                )
            }
            "fn" => {
                (is_head, depth) = (true, 0);
                (Some(word), true)
            }
            _ if word > 0 => (Some(word), true),
            _ => {
                match c {
                    '(' | '[' if is_head => depth += 1,
                    ')' | ']' if is_head => depth = depth.saturating_sub(1),
                    '{' | ';' if depth == 0 => is_head = false,
                    _ => {}
                }
                (Some(c.len_utf8()), true)
            }
        };
        let Some(length) = length else {
            return unknown(line, "a ghost item, a clause or an attribute of another form");
        };
        if !is_kept {
            out.truncate(out.trim_end_matches([' ', '\t']).len());
        }
        for c in rest[..length].chars() {
            if is_kept || c == '\n' {
                out.push(c);
            }
            match c {
                '\n' => (line, is_start) = (line + 1, true),
                c if !c.is_whitespace() => is_start = false,
                _ => {}
            }
        }
        // The semicolon of a trait's function may follow.
        if !is_kept && !rest[length..].starts_with(['\n', ';']) {
            return unknown(line, "something after a ghost item, a clause or an attribute");
        }
        place += length;
    }
    Ok(out)
}

fn is_balanced(text: &str) -> bool {
    text.matches('(').count() == text.matches(')').count()
        && text.matches('[').count() == text.matches(']').count()
}

/// How many bytes a block has that `text` begins with. It has no comments, Rust's or the prover's (`--`), and no characters in quotes.
fn block_end(text: &str) -> Option<usize> {
    let (mut depth, mut behind) = (0usize, 0);
    for (place, c) in text.char_indices() {
        match c {
            _ if place < behind => continue,
            '{' => depth += 1,
            '}' => depth -= 1,
            '"' => behind = place + quoted(&text[place..], '"')?,
            '\'' => return None,
            '/' if text[place..].starts_with("//") || text[place..].starts_with("/*") => return None,
            '-' if text[place..].starts_with("--") => return None,
            _ => {}
        }
        if depth == 0 {
            return (c == '}').then_some(place + 1);
        }
    }
    None
}

/// How many bytes a clause has: its word, a name or none, and its block.
fn clause_end(text: &str) -> Option<usize> {
    let open = text.find('{')?;
    let head: Vec<&str> = text[..open].split_whitespace().collect();
    let is_name = |name: &str| name.chars().all(|c| c.is_ascii_alphanumeric() || c == '_');
    match head[..] {
        [_] => {}
        [_, name] if is_name(name) => {}
        _ => return None,
    }
    block_end(&text[open..]).map(|length| open + length)
}

/// How many bytes a ghost item has, with the semicolon or the comma after it.
fn ghost_end(text: &str) -> Option<usize> {
    if text.starts_with("ghost use ") {
        let end = text.find(';')? + 1;
        let item = &text[..end];
        let is_whole = item.matches('{').count() == item.matches('}').count();
        return (is_whole && !item.contains(['"', '\'', '\n']) && !item.contains("//")).then_some(end);
    }
    let mut place = "ghost ".len() + text.strip_prefix("ghost ")?.find(|c| !is_of_word(c))?;
    loop {
        let rest = text[place..].trim_start().strip_prefix([':', '='])?.trim_start();
        place = text.len() - rest.len() + block_end(rest)?;
        match text[place..].chars().next()? {
            ';' | ',' => return Some(place + 1),
            ' ' => {}
            _ => return None,
        }
    }
}

/// Leaves out the comment of an item that is left out, which stands on the last lines.
fn leave_out_comment(out: &mut String) {
    let mut end = out.trim_end_matches([' ', '\t']).len();
    while out[..end].ends_with('\n') {
        let start = out[..end - 1].rfind('\n').map_or(0, |before| before + 1);
        if !out[start..end].trim_start().starts_with("///") {
            break;
        }
        out.replace_range(start..end - 1, "");
        end = start;
    }
}

/// A variant of an enum of errors, with its words.
struct Variant<'b> {
    name: &'b str,
    words: &'b str,
    has_field: bool,
}

/// What is written of Rust's pieces.
struct Writer<'a, 'b> {
    of: &'b Crate<'a>,
    pieces: &'b [Piece<'b>],
    place: usize,
    out: String,
    modules: Vec<String>,
    /// An enum of errors, and its variants.
    error: Option<(&'b str, Vec<Variant<'b>>)>,
    is_error: bool,
    /// Within an `impl Drop`, and within its `drop`.
    is_drop: bool,
    is_dropping: bool,
}

impl<'b> Writer<'_, 'b> {
    /// The `n`th piece from here on that is neither white space nor a comment.
    fn ahead(&self, n: usize) -> &'b str {
        let rest = self.pieces[self.place..].iter();
        rest.filter(|piece| piece.kind != Kind::Space)
            .nth(n)
            .map_or("", |piece| piece.text)
    }

    /// Whether these pieces come next.
    fn is_next(&self, words: &[&str]) -> bool {
        words.iter().enumerate().all(|(n, word)| self.ahead(n) == *word)
    }

    /// The last piece before here that is neither white space nor a comment.
    fn before(&self) -> &'b str {
        let earlier = self.pieces[..self.place].iter().rev();
        earlier
            .clone()
            .find(|piece| piece.kind != Kind::Space)
            .map_or("", |piece| piece.text)
    }

    /// Whether the `+` here is one of a type's bounds: of parameters after `<`, of a `where`, a `trait`, a `type` or an `impl`, with
    /// nothing but names, paths and `<..>` between.
    fn is_bound(&self) -> bool {
        let earlier: Vec<&str> = self.pieces[..self.place]
            .iter()
            .rev()
            .filter(|piece| piece.kind != Kind::Space)
            .map(|piece| piece.text)
            .collect();
        let mut depth = 0usize;
        for (n, text) in earlier.iter().enumerate() {
            let after = |n: usize| earlier.get(n).copied().unwrap_or("");
            match *text {
                ">" if after(n + 1) == "-" => return false,
                ">" => depth += 1,
                "<" if depth == 0 => {
                    let items = ["fn", "struct", "enum", "trait", "type"];
                    return after(n + 1) == "impl" || items.contains(&after(n + 2));
                }
                "<" => depth -= 1,
                _ if depth > 0 => {}
                "where" | "trait" | "type" | "impl" => return true,
                ":" | "," | "+" | "?" => {}
                name if name.starts_with(|c| is_of_word(c) || c == '\'') => {}
                _ => return false,
            }
        }
        false
    }

    fn line(&self) -> usize {
        self.pieces.get(self.place).map_or(0, |piece| piece.line)
    }

    /// Writes so many pieces, beside white space and comments, or leaves them out but for line ends.
    fn take(&mut self, count: usize, is_kept: bool) {
        let mut left = count;
        while left > 0 {
            let piece = self.pieces[self.place];
            self.place += 1;
            left -= usize::from(piece.kind != Kind::Space);
            match is_kept {
                true => self.out.push_str(piece.text),
                false => self.out.extend(piece.text.chars().filter(|&c| c == '\n')),
            }
        }
    }

    /// How many pieces there are up to one, with it.
    fn up_to(&self, end: &str) -> Result<usize, Unknown> {
        let mut n = 0;
        while self.ahead(n) != end {
            if self.ahead(n).is_empty() {
                return unknown(self.line(), &format!("an item without its `{end}`"));
            }
            n += 1;
        }
        Ok(n + 1)
    }

    /// Whether the word here is a macro's: a `!` stands after it that is none of `!=`.
    fn is_macro(&self) -> bool {
        let rest = &self.pieces[self.place + 1..];
        let is_apart = rest.first().map_or(false, |piece| piece.kind == Kind::Space);
        let mut rest = rest.iter().skip_while(|piece| piece.kind == Kind::Space);
        let is_keyword = BEFORE_NOT.contains(&self.pieces[self.place].text);
        match (rest.next(), rest.next()) {
            (Some(mark), Some(next)) => mark.text == "!" && next.text != "=" && !(is_apart && is_keyword),
            _ => false,
        }
    }

    /// An attribute that is known.
    fn attribute(&mut self) -> Result<(), Unknown> {
        let line = self.line();
        if self.is_next(&["#", "[", "unsafe", "(", "no_mangle", ")", "]"]) {
            self.take(7, false);
            return Ok(());
        }
        if let ([true, true], Some((_, variants))) = (
            [self.is_next(&["#", "[", "error", "("]), self.ahead(5) == ")"],
            &mut self.error,
        ) {
            let rest: Vec<&str> = self.pieces[self.place..]
                .iter()
                .filter(|piece| piece.kind != Kind::Space)
                .take(9)
                .map(|piece| piece.text)
                .collect();
            if rest.len() < 9 {
                return unknown(line, "an error's words without a variant");
            }
            let has_field = rest[8] == "(";
            if !has_field && rest[4].contains(['{', '}']) {
                return unknown(line, "braces in the words of an error without a field");
            }
            variants.push(Variant {
                name: rest[7],
                words: rest[4],
                has_field,
            });
            self.take(7, false);
            return Ok(());
        }
        let name = self.ahead(2);
        if self.ahead(1) != "[" || !ATTRIBUTES.contains(&name) {
            return unknown(
                line,
                &format!("the attribute `{}{}{name}`", self.ahead(0), self.ahead(1)),
            );
        }
        let count = self.up_to("]")?;
        if name == "derive" {
            let derived: Vec<&str> = (4..count - 2).step_by(2).map(|n| self.ahead(n)).collect();
            if let Some(other) = derived
                .iter()
                .find(|name| !DERIVES.contains(name) && !OWN_DERIVES.contains(name))
            {
                return unknown(line, &format!("a derived `{other}`"));
            }
            self.is_error = derived.contains(&"Error");
            if derived.iter().any(|name| OWN_DERIVES.contains(name)) {
                self.take(count, false);
                let kept: Vec<&str> = derived
                    .into_iter()
                    .filter(|name| DERIVES.contains(name))
                    .collect();
                self.out += &format!("#[derive({})]", kept.join(", "));
                return Ok(());
            }
        }
        self.take(count, true);
        Ok(())
    }

    /// A module of another file, or a `pub use` of one that isn't taken.
    fn module(&mut self) -> Result<bool, Unknown> {
        let shift = usize::from(self.ahead(0) == "pub");
        let (word, name) = (self.ahead(shift), self.ahead(shift + 1));
        if word == "mod" {
            if self.ahead(shift + 2) != ";" {
                return unknown(self.line(), "a module that isn't a file's");
            }
            let is_taken = (self.of.takes)(name);
            if is_taken {
                self.modules.push(name.to_string());
            }
            self.take(shift + 3, is_taken);
            return Ok(true);
        }
        if word == "use" && ((shift == 1 && self.ahead(shift + 4) == "laws") || name == "thiserror") {
            let count = self.up_to(";")?;
            self.take(count, false);
            return Ok(true);
        }
        let is_own =
            !["crate", "super", "self", "core", "std"].contains(&name) && !self.of.all.contains(&name);
        if shift == 1 && word == "use" && is_own && !(self.of.takes)(name) {
            let count = self.up_to(";")?;
            self.take(count, false);
            return Ok(true);
        }
        Ok(false)
    }

    /// Whether the `impl` here is one of `Drop`.
    fn of_drop(&self) -> bool {
        let head: Vec<&str> = (1..40)
            .map(|n| self.ahead(n))
            .take_while(|text| *text != "{")
            .collect();
        head.windows(2).any(|pair| pair == ["Drop", "for"])
    }

    /// An enum's head: whether it is one of errors is kept, and the type of its tag is written before it.
    fn enumeration(&mut self) -> Result<(), Unknown> {
        let name = self.ahead(1);
        if self.is_error && self.error.is_some() {
            return unknown(self.line(), "a second enum of errors");
        }
        if self.is_error {
            self.error = Some((name, Vec::new()));
        }
        self.is_error = false;
        if let Some((_, tag)) = self.of.tags.iter().find(|(of, _)| *of == name) {
            let start = self.out.rfind('\n').map_or(0, |before| before + 1);
            self.out.insert_str(start, &format!("#[repr({tag})] "));
        }
        Ok(())
    }

    fn piece(&mut self) -> Result<(), Unknown> {
        let piece = self.pieces[self.place];
        let (before, is_path) = (self.before(), self.ahead(1) == ":" && self.ahead(2) == ":");
        match piece.kind {
            Kind::Mark if piece.text == "#" => return self.attribute(),
            Kind::Mark if piece.text == "+" && self.ahead(1) == "Drop" => {
                if !self.is_bound() {
                    return unknown(piece.line, "`+ Drop` in another place than a bound of a type");
                }
                self.take(2, false);
                return Ok(());
            }
            Kind::Word => {}
            _ => {
                self.out.push_str(piece.text);
                self.place += 1;
                return Ok(());
            }
        }
        match piece.text {
            "mod" | "use" | "pub" if ["", ";", "}", "]"].contains(&before) && self.module()? => return Ok(()),
            "crate" if is_path => {
                self.take(3, true);
                self.out.push_str(self.of.name);
                self.out.push_str("::");
                return Ok(());
            }
            "enum" => self.enumeration()?,
            "laws" if self.ahead(1) == "as" && ["{", ","].contains(&before) && self.ahead(3) == "," => {
                self.take(4, false);
                return Ok(());
            }
            "mod" if before == ")" => return unknown(piece.line, "a module of a part of the crate"),
            "impl" => self.is_drop = self.of_drop(),
            "trait" => self.is_drop = false,
            "drop" if before == "fn" => {
                if !self.is_drop || !self.is_next(&["drop", "(", "self", ")"]) {
                    return unknown(piece.line, "`drop` of another form");
                }
                self.take(2, true);
                self.out.push_str("&mut ");
                self.is_dropping = true;
                return Ok(());
            }
            "fn" => self.is_dropping = false,
            "mut" if self.is_dropping && ["{", ","].contains(&before) => {
                self.take(1, false);
                return Ok(());
            }
            "simdutf8" if self.is_next(&["simdutf8", ":", ":", "compat", ":", ":", "from_utf8"]) => {
                self.take(4, false);
                self.out.push_str("core::str");
                return Ok(());
            }
            "std" if is_path && before != ":" && KIT.contains(&self.ahead(3)) => {
                self.take(4, false);
                self.out.push_str("crate::kit");
                return Ok(());
            }
            "std"
                if is_path && before != ":" && WITHIN_KIT.contains(&self.ahead(3))
                    || self.is_next(&["std", ":", ":", "{", "env", ",", "io", "}"]) =>
            {
                self.take(1, false);
                self.out.push_str("crate::kit");
                return Ok(());
            }
            "std" if is_path && before != ":" => {
                self.take(1, false);
                self.out.push_str("core");
                return Ok(());
            }
            name if is_path && before != ":" && before != "." && self.of.all.contains(&name) => {
                self.out.push_str("crate::")
            }
            name if is_path && before != ":" && before != "." && PORTED.contains(&name) => {
                self.out.push_str("crate::kit::")
            }
            "extern" => {
                if !self.is_next(&["extern", "\"C\"", "fn"]) {
                    return unknown(piece.line, "`extern` of another form");
                }
                self.take(2, false);
                while self.pieces[self.place].kind == Kind::Space {
                    self.place += 1;
                }
                return Ok(());
            }
            "fmt" if before == "fn" => {
                let head = ["fmt", "<", "W", ":", "fmt", ":", ":", "Write", ">"];
                let rest = [
                    "(",
                    "&",
                    "self",
                    ",",
                    "f",
                    ":",
                    "&",
                    "mut",
                    "fmt",
                    ":",
                    ":",
                    "Formatter",
                    "<",
                    "W",
                    ">",
                    ")",
                ];
                if !self.is_next(&[&head[..], &rest[..]].concat()) {
                    return unknown(piece.line, "`fmt` of another form");
                }
                self.take(1, true);
                self.take(8, false);
                self.take(13, true);
                self.take(1, false);
                self.out.push_str("'_");
                return Ok(());
            }
            "decreases" | "invariant" | "measure" if self.ahead(1) == "{" || self.ahead(2) == "{" => {
                return unknown(piece.line, &format!("`{}` of a loop or a function", piece.text));
            }
            word if RESERVED.contains(&word) => return unknown(piece.line, &format!("`{word}`")),
            word if self.is_macro() && !MACROS.contains(&word) => {
                return unknown(piece.line, &format!("the macro `{word}!`"));
            }
            _ => {}
        }
        self.take(1, true);
        Ok(())
    }
}

/// Returns the plain Rust of a file of a crate.
///
/// # Errors
///
/// What is in the file and isn't known.
pub fn erase(of: &Crate<'_>, text: &str) -> Result<Plain, Unknown> {
    let plain = without_ghosts(text)?;
    let pieces = pieces(&plain)?;
    let (out, modules) = (String::new(), Vec::new());
    let mut writer = Writer {
        of,
        pieces: &pieces,
        place: 0,
        out,
        modules,
        error: None,
        is_error: false,
        is_drop: false,
        is_dropping: false,
    };
    while writer.place < pieces.len() {
        writer.piece()?;
    }
    if !of.prelude.is_empty() {
        writer.out += &format!("#[allow(unused_imports)] use crate::kit::{{{}}};\n", of.prelude);
    }
    if let Some((name, variants)) = &writer.error {
        let arms = variants.iter().map(
            |Variant {
                 name,
                 words,
                 has_field,
             }| match has_field {
                true => format!("Self::{name}(field) => write!(f, {words}, field),"),
                false => format!("Self::{name} => f.write_str({words}),"),
            },
        );
        let arms: String = arms.collect();
        writer.out += &format!("impl core::fmt::Display for {name} {{ ");
        writer.out += "fn fmt(&self, f: &mut core::fmt::Formatter<'_>) -> core::fmt::Result { ";
        writer.out += &format!("match self {{ {arms} }} }} }}\n");
        writer.out += &format!("impl core::error::Error for {name} {{}}\n");
    }
    Ok(Plain {
        text: writer.out,
        modules: writer.modules,
    })
}
