//! libyaml's scanner as a source of tokens.

use pokhvizi::yaml::{Encoding, Mark, ScalarStyle, SourceError, Token, TokenData, TokenSource};
use std::ffi::{c_char, CStr};
use std::marker::PhantomData;
use std::mem::MaybeUninit;

/// The tokens of a text, as libyaml's scanner splits it: UTF-8, or UTF-16 with a mark of its order.
pub struct Scanner<'a> {
    /// libyaml's parser, of which only the scanner is called. It keeps its own address, so it stays at a place of its own, and no
    /// `Box` owns it, which would be moved.
    parser: *mut libyaml::yaml_parser_t,
    fault: Option<SourceError>,
    text: PhantomData<&'a [u8]>,
}

impl<'a> Scanner<'a> {
    /// Returns the tokens of this text.
    ///
    /// # Errors
    ///
    /// There is no memory.
    pub fn new(text: &'a [u8]) -> Result<Self, SourceError> {
        let place = Box::into_raw(Box::new(MaybeUninit::<libyaml::yaml_parser_t>::uninit()));
        let parser = place.cast::<libyaml::yaml_parser_t>();
        unsafe {
            if libyaml::yaml_parser_initialize(parser).fail {
                drop(Box::from_raw(place));
                return Err(SourceError::out_of_memory());
            }
            libyaml::yaml_parser_set_input_string(parser, text.as_ptr(), text.len() as u64);
        }
        Ok(Scanner {
            parser,
            fault: None,
            text: PhantomData,
        })
    }

    fn scan(&mut self) -> Result<Token, SourceError> {
        let mut token = MaybeUninit::uninit();
        unsafe {
            if libyaml::yaml_parser_scan(self.parser, token.as_mut_ptr()).fail {
                return Err(fault_of(&*self.parser));
            }
            let made = token_of(token.assume_init_ref());
            libyaml::yaml_token_delete(token.as_mut_ptr());
            made
        }
    }

    /// Puts the next token into a variable. A scalar's text is written over the one that is there, in its memory.
    fn scan_into(&mut self, slot: &mut Token) -> Result<(), SourceError> {
        let mut token = MaybeUninit::uninit();
        unsafe {
            if libyaml::yaml_parser_scan(self.parser, token.as_mut_ptr()).fail {
                return Err(fault_of(&*self.parser));
            }
            let token = token.assume_init_mut();
            slot.start_mark = mark_of(token.start_mark);
            slot.end_mark = mark_of(token.end_mark);
            let made = match (&mut slot.content, token.type_) {
                (TokenData::Scalar(scalar), libyaml::YAML_SCALAR_TOKEN) => {
                    let from = &token.data.scalar;
                    scalar.style = style_of(from.style);
                    scalar.value.clear();
                    text_of(from.value, from.length as usize)
                        .and_then(|text| scalar.value.push_str(text).map_err(SourceError::from))
                }
                (content, _) => data_of(token).map(|data| *content = data),
            };
            libyaml::yaml_token_delete(token);
            made
        }
    }
}

impl TokenSource for Scanner<'_> {
    fn next_token_into(&mut self, slot: &mut Token) -> Result<(), SourceError> {
        if let Some(fault) = self.fault {
            return Err(fault);
        }
        let scanned = self.scan_into(slot);
        self.fault = scanned.err();
        scanned
    }

    fn next_token(&mut self) -> Result<Token, SourceError> {
        if let Some(fault) = self.fault {
            return Err(fault);
        }
        let token = self.scan();
        self.fault = token.as_ref().err().copied();
        token
    }
}

impl std::fmt::Debug for Scanner<'_> {
    fn fmt(&self, f: &mut std::fmt::Formatter<'_>) -> std::fmt::Result {
        f.debug_struct("Scanner").finish_non_exhaustive()
    }
}

impl Drop for Scanner<'_> {
    fn drop(&mut self) {
        unsafe {
            libyaml::yaml_parser_delete(self.parser);
            drop(Box::from_raw(
                self.parser.cast::<MaybeUninit<libyaml::yaml_parser_t>>(),
            ));
        }
    }
}

fn mark_of(mark: libyaml::yaml_mark_t) -> Mark {
    let libyaml::yaml_mark_t {
        index, line, column, ..
    } = mark;
    Mark { index, line, column }
}

/// A text of the scanner's, which is UTF-8: it has decoded its input.
unsafe fn text_of<'a>(start: *const u8, length: usize) -> Result<&'a str, SourceError> {
    let bytes = std::slice::from_raw_parts(start, length);
    let no_text = |_| {
        SourceError::scanner_error(
            "text is not UTF-8",
            Mark {
                index: 0,
                line: 0,
                column: 0,
            },
        )
    };
    std::str::from_utf8(bytes).map_err(no_text)
}

/// A text that ends with a zero byte.
unsafe fn name_of<'a>(start: *const u8) -> Result<&'a str, SourceError> {
    text_of(start, CStr::from_ptr(start.cast()).to_bytes().len())
}

/// libyaml's words, which are constants.
unsafe fn words_of(words: *const c_char) -> Option<&'static str> {
    (!words.is_null())
        .then(|| CStr::from_ptr(words).to_str().ok())
        .flatten()
}

unsafe fn fault_of(parser: &libyaml::yaml_parser_t) -> SourceError {
    use pokhvizi::yaml::ErrorKind;
    let kind = match parser.error {
        libyaml::YAML_READER_ERROR => ErrorKind::READER,
        libyaml::YAML_SCANNER_ERROR => ErrorKind::SCANNER,
        _ => return SourceError::out_of_memory(),
    };
    let (problem, context) = (words_of(parser.problem), words_of(parser.context));
    let (at, within) = (mark_of(parser.problem_mark), mark_of(parser.context_mark));
    SourceError::new(
        kind,
        problem,
        parser.problem_offset,
        parser.problem_value,
        at,
        context,
        within,
    )
}

fn encoding_of(encoding: libyaml::yaml_encoding_t) -> Encoding {
    match encoding {
        libyaml::YAML_UTF16LE_ENCODING => Encoding::UTF16LE,
        libyaml::YAML_UTF16BE_ENCODING => Encoding::UTF16BE,
        _ => Encoding::UTF8,
    }
}

fn style_of(style: libyaml::yaml_scalar_style_t) -> ScalarStyle {
    match style {
        libyaml::YAML_SINGLE_QUOTED_SCALAR_STYLE => ScalarStyle::SINGLE_QUOTED,
        libyaml::YAML_DOUBLE_QUOTED_SCALAR_STYLE => ScalarStyle::DOUBLE_QUOTED,
        libyaml::YAML_LITERAL_SCALAR_STYLE => ScalarStyle::LITERAL,
        libyaml::YAML_FOLDED_SCALAR_STYLE => ScalarStyle::FOLDED,
        _ => ScalarStyle::PLAIN,
    }
}

unsafe fn token_of(token: &libyaml::yaml_token_t) -> Result<Token, SourceError> {
    let data = data_of(token)?;
    Ok(Token::new(
        data,
        mark_of(token.start_mark),
        mark_of(token.end_mark),
    ))
}

#[inline]
unsafe fn data_of(token: &libyaml::yaml_token_t) -> Result<TokenData, SourceError> {
    use TokenData::*;
    let data = &token.data;
    Ok(match token.type_ {
        libyaml::YAML_STREAM_START_TOKEN => TokenData::stream_start(encoding_of(data.stream_start.encoding)),
        libyaml::YAML_STREAM_END_TOKEN => StreamEnd,
        libyaml::YAML_VERSION_DIRECTIVE_TOKEN => {
            TokenData::version_directive(data.version_directive.major, data.version_directive.minor)
        }
        libyaml::YAML_TAG_DIRECTIVE_TOKEN => TokenData::tag_directive(
            name_of(data.tag_directive.handle)?,
            name_of(data.tag_directive.prefix)?,
        )?,
        libyaml::YAML_DOCUMENT_START_TOKEN => DocumentStart,
        libyaml::YAML_DOCUMENT_END_TOKEN => DocumentEnd,
        libyaml::YAML_BLOCK_SEQUENCE_START_TOKEN => BlockSequenceStart,
        libyaml::YAML_BLOCK_MAPPING_START_TOKEN => BlockMappingStart,
        libyaml::YAML_BLOCK_END_TOKEN => BlockEnd,
        libyaml::YAML_FLOW_SEQUENCE_START_TOKEN => FlowSequenceStart,
        libyaml::YAML_FLOW_SEQUENCE_END_TOKEN => FlowSequenceEnd,
        libyaml::YAML_FLOW_MAPPING_START_TOKEN => FlowMappingStart,
        libyaml::YAML_FLOW_MAPPING_END_TOKEN => FlowMappingEnd,
        libyaml::YAML_BLOCK_ENTRY_TOKEN => BlockEntry,
        libyaml::YAML_FLOW_ENTRY_TOKEN => FlowEntry,
        libyaml::YAML_KEY_TOKEN => Key,
        libyaml::YAML_VALUE_TOKEN => Value,
        libyaml::YAML_ALIAS_TOKEN => TokenData::alias(name_of(data.alias.value)?)?,
        libyaml::YAML_ANCHOR_TOKEN => TokenData::anchor(name_of(data.anchor.value)?)?,
        libyaml::YAML_TAG_TOKEN => TokenData::tag(name_of(data.tag.handle)?, name_of(data.tag.suffix)?)?,
        libyaml::YAML_SCALAR_TOKEN => {
            let text = text_of(data.scalar.value, data.scalar.length as usize)?;
            TokenData::scalar(text, style_of(data.scalar.style))?
        }
        _ => NoToken,
    })
}
