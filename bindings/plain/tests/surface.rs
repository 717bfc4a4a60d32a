//! The module `yaml`: each of its iterators and calls gives what the library's own give, over all lists.

mod lines;

use lines::data::{lists_of, TABLES};
use lines::tokens::{source_of, token_of, tokens_of};
use lines::written::{document_lines, event_line, events, fault_lines, nodes};
use pokhvizi::unsafe_libyaml::yaml_parser_initialize;
use pokhvizi::yaml::*;
use std::num::NonZeroU32;

/// Each list of the test vectors: its name, its lines, its tokens.
fn each_list(mut then: impl FnMut(&str, &str, Vec<Token>)) {
    let lists = lists_of(&TABLES);
    assert!(lists.len() >= 142, "only {} lists", lists.len());
    for list in lists {
        then(&list.name, &list.tokens, tokens_of(&list.tokens));
    }
}

fn told(error: &Error) -> String {
    let fault = pokhvizi::libyaml_types::yaml_parser_t_prefix {
        error: error.kind(),
        problem: error.problem(),
        problem_offset: 0,
        problem_value: 0,
        problem_mark: error.mark(),
        context: error.context(),
        context_mark: error.context_mark(),
    };
    fault_lines(&fault)
}

/// The lines of an iterator's values and of its error.
fn lines_of<T>(values: impl Iterator<Item = Result<T, Error>>, line: impl Fn(&T) -> String) -> String {
    values
        .map(|value| value.map_or_else(|error| told(&error), |value| line(&value)))
        .collect()
}

#[test]
fn iterators_give_what_the_library_gives() {
    each_list(|name, lines, tokens| {
        assert_eq!(
            lines_of(Parser::new(source_of(lines)), event_line),
            events(lines),
            "{name}"
        );
        assert_eq!(
            lines_of(Documents::new(source_of(lines)), document_lines),
            nodes(lines),
            "{name}"
        );
        let (mut parser, mut event, mut in_place) =
            (Parser::new(source_of(lines)), Event::default(), String::new());
        while let Some(next) = parser.next_into(&mut event) {
            in_place += &next.map_or_else(|error| told(&error), |()| event_line(&event));
        }
        assert_eq!(in_place, events(lines), "{name}");
        assert_eq!(event, Event::default());
        let mut boxed: Box<dyn TokenSource> = Box::new(TokenList::from(tokens));
        let pulled = lines_of(Parser::new(&mut boxed), event_line);
        let list = lines_of(Parser::new(source_of(lines)), event_line);
        assert!(pulled == list || list.contains("no more tokens"), "{name}");
    });
}

#[test]
fn composed_events_are_events_up_to_the_error_of_a_load() {
    let mut stopped = 0;
    each_list(|name, lines, _| {
        let composed = lines_of(ComposedEvents::new(source_of(lines)), event_line);
        let (all, loads) = (events(lines), nodes(lines));
        let fault = |lines: &str| lines.find("FAULT ").map(|place| lines[place..].to_string());
        assert_eq!(fault(&composed), fault(&loads), "{name}");
        if fault(&composed) == fault(&all) {
            assert_eq!(composed, all, "{name}");
        } else {
            let before = composed.find("FAULT ").unwrap();
            assert!(all.starts_with(&composed[..before]), "{name}");
            stopped += 1;
        }
    });
    assert!(stopped >= 5, "only {stopped} lists with an error of a load alone");
}

#[test]
fn pushes_give_the_same_and_expect_each_token() {
    each_list(|name, lines, tokens| {
        let (mut parser, mut given) = (PushParser::new(), Vec::new());
        let (mut loader, mut documents) = (PushLoader::new(), Vec::new());
        let (mut error, mut load_error) = (None, None);
        let whole = !events(lines).contains("FAULT ");
        for (token, again) in tokens.into_iter().zip(lines.lines().map(token_of)) {
            assert!(!whole || parser.expected().contains(token.type_()), "{name}");
            error = error.or(parser.push(token, &mut given).err());
            load_error = load_error.or(loader.push(again, &mut documents).err());
        }
        let pushed: String = given
            .iter()
            .map(event_line)
            .chain(error.as_ref().map(told))
            .collect();
        let loaded: String = documents
            .iter()
            .map(document_lines)
            .chain(load_error.as_ref().map(told))
            .collect();
        let no_more = |lines: String| {
            lines
                .split_inclusive('\n')
                .filter(|line| !line.contains("no more tokens"))
                .collect::<String>()
        };
        assert_eq!(pushed, no_more(events(lines)), "{name}");
        assert_eq!(loaded, no_more(nodes(lines)), "{name}");
        assert!(!whole || parser.expected().iter().next().is_none(), "{name}");
    });
}

#[test]
fn what_is_expected_has_words() {
    use TokenData::*;
    let mut parser = PushParser::new();
    let mut told = vec![parser.expected().to_string()];
    let start = TokenData::stream_start(Encoding::UTF8);
    for data in [
        start,
        BlockMappingStart,
        Key,
        plain("a"),
        Value,
        FlowSequenceStart,
        plain("b"),
    ] {
        parser
            .push(Token::new(data, ZERO, ZERO), &mut Vec::new())
            .unwrap();
        told.push(parser.expected().to_string());
    }
    assert_eq!(
        told,
        [
            "the start of the stream",
            "a node, %YAML, %TAG, '---' or the end of the stream",
            "a key, a value or the end of the block mapping",
            "a node, '-', a key, a value or the end of the block mapping",
            "a key, a value or the end of the block mapping",
            "a node, '-', a key, a value or the end of the block mapping",
            "a flow node, a key or ']'",
            "',' or ']'",
        ]
    );
}

/// Between events a parser expects what one that is handed the same tokens does, or the token that gave the next
/// event before it was taken itself.
#[test]
fn a_parser_says_what_may_come_next() {
    let (mut compared, mut later) = (0, 0);
    each_list(|name, lines, tokens| {
        let (mut parser, mut push) = (Parser::new(source_of(lines)), PushParser::new());
        assert_eq!(parser.expected(), push.expected());
        let mut documents = Documents::new(source_of(lines));
        assert_eq!(documents.expected(), push.expected());
        assert!(documents.by_ref().all(|document| document.is_ok()) || documents.expected().words().count() == 0);
        for token in tokens {
            let (kind, mut given) = (token.type_(), Vec::new());
            let pushed = push.push(token, &mut given);
            given.iter().for_each(|event| assert_eq!(event_line(&parser.next().unwrap().unwrap()), event_line(event)));
            if pushed.is_err() {
                return assert!(parser.next().unwrap().is_err() && parser.expected() == push.expected(), "{name}");
            }
            if !given.is_empty() {
                let is_same = parser.expected() == push.expected();
                assert!(is_same || parser.expected().contains(kind), "{name}");
                *(if is_same { &mut compared } else { &mut later }) += 1;
            }
        }
    });
    assert!(compared > 10 * later && later > 0, "{compared} and {later}");
}

/// What an error is about, and what was expected.
#[test]
fn errors_are_explained() {
    use TokenData::*;
    let explained = |data: Vec<TokenData>| {
        let source = || list(data.clone_tokens());
        let found = [
            Parser::new(source()).find_map(Result::err),
            Documents::new(source()).find_map(Result::err),
            ComposedEvents::new(source()).find_map(Result::err),
        ];
        let found: Vec<Explained> = found.into_iter().flatten().map(|error| error.explained(source())).collect();
        let last = found.last().unwrap();
        assert!(found.iter().all(|error| error == last && error.expected() == last.expected()));
        let half = Documents::new(source()).next_or_half().unwrap().unwrap_err();
        assert_eq!((half.error, half.name.as_deref()), (**last, last.name()));
        // By other tokens nothing is told.
        let other = half.error.explained(list(vec![]));
        assert_eq!((&*other, other.expected(), other.name()), (&**last, TokenTypes::none(), None));
        (last.expected().to_string(), last.name().map(String::from))
    };
    let (alias, anchor) = (|| TokenData::alias("a").unwrap(), || TokenData::anchor("a").unwrap());
    let none = String::new;
    assert_eq!(explained(vec![FlowSequenceStart, plain("a"), plain("b")]), ("',' or ']'".into(), None));
    assert_eq!(explained(vec![alias()]), (none(), Some("a".into())));
    let twice = vec![FlowSequenceStart, anchor(), plain("b"), FlowEntry, anchor(), plain("c"), FlowSequenceEnd];
    assert_eq!(explained(twice), (none(), Some("a".into())));
    let tag = TokenData::tag("!x!", "y").unwrap();
    assert_eq!(explained(vec![tag, plain("b")]), (none(), Some("!x!".into())));
    let tags = ["!x!", "!y!"].map(|handle| TokenData::tag(handle, "y").unwrap());
    assert_eq!(explained(tags.into()).1, Some("!x!".into()));
    // What clippy calls a large error begins there.
    assert!(std::mem::size_of::<Explained>() < 128 && std::mem::size_of::<Error>() < 128);
    // Each list that the grammar refuses.
    let mut refused = 0;
    each_list(|name, lines, _| {
        if let Some(error) = Parser::new(source_of(lines)).find_map(Result::err) {
            let other = ErrorKind::PARSER != error.kind();
            let error = error.explained(source_of(lines));
            let is_told = error.expected() != TokenTypes::none();
            assert!(!(other && is_told), "{name}");
            refused += usize::from(is_told);
            assert!(error.problem().map_or(true, |problem| is_told || !problem.starts_with("did not find")), "{name}");
        }
    });
    assert!(refused >= 10, "only {refused}");
}

/// A copy of tokens, of those that these lists have.
trait CloneTokens {
    fn clone_tokens(&self) -> Vec<TokenData>;
}

impl CloneTokens for Vec<TokenData> {
    fn clone_tokens(&self) -> Vec<TokenData> {
        use TokenData::*;
        let copy = |data: &TokenData| match data {
            Scalar(scalar) => plain(&scalar.value),
            Alias(alias) => TokenData::alias(&alias.value).unwrap(),
            Anchor(anchor) => TokenData::anchor(&anchor.value).unwrap(),
            Tag(tag) => TokenData::tag(&tag.handle, &tag.suffix).unwrap(),
            FlowSequenceStart => FlowSequenceStart,
            FlowSequenceEnd => FlowSequenceEnd,
            _ => FlowEntry,
        };
        self.iter().map(copy).collect()
    }
}

const ZERO: Mark = Mark {
    index: 0,
    line: 0,
    column: 0,
};

fn list(data: Vec<TokenData>) -> TokenList {
    let start = TokenData::stream_start(Encoding::UTF8);
    let all = [start]
        .into_iter()
        .chain(data)
        .chain([TokenData::StreamEnd])
        .enumerate();
    let at = |index: usize| Mark {
        index: index as u64,
        line: 0,
        column: index as u64,
    };
    let tokens: Vec<Token> = all
        .map(|(place, data)| Token::new(data, at(place), at(place + 1)))
        .collect();
    TokenList::from(tokens)
}

fn plain(text: &str) -> TokenData {
    TokenData::scalar(text, ScalarStyle::PLAIN).unwrap()
}

#[test]
fn an_error_has_words_and_places() {
    use TokenData::*;
    let wrong = || list(vec![FlowSequenceStart, plain("a"), plain("b")]);
    let first_error = || -> Result<usize, Box<dyn std::error::Error>> {
        let mut events = 0;
        for event in Parser::new(wrong()) {
            event?;
            events += 1;
        }
        Ok(events)
    };
    let words = "did not find expected ',' or ']' at line 1, column 4; while parsing a flow sequence at line 1, column 2";
    assert_eq!(first_error().unwrap_err().to_string(), words);
    let error = Parser::new(wrong()).last().unwrap().unwrap_err();
    assert_eq!(
        (error.kind(), error.mark().column, error.context_mark().column),
        (ErrorKind::PARSER, 3, 1)
    );
    assert!(format!("{error:?}").starts_with("Error { kind: YAML_PARSER_ERROR, problem: Some(\"did not find"));
    assert_eq!(Parser::new(wrong()).by_ref().filter(Result::is_err).count(), 1);
}

#[test]
fn a_source_ends_by_its_error() {
    let fault = SourceError::scanner_error("found a tab", ZERO);
    let mut asked = 0;
    let source = tokens(std::iter::from_fn(|| {
        asked += 1;
        Some(match asked {
            1 => Ok(Token::new(TokenData::stream_start(Encoding::UTF8), ZERO, ZERO)),
            2 => Ok(Token::new(plain("a"), ZERO, ZERO)),
            _ => Err(fault),
        })
    }));
    let mut parser = Parser::new(source);
    let given: Vec<_> = parser.by_ref().collect();
    assert_eq!(given.len(), 4);
    assert_eq!(given[3], Err(Error::from(fault)));
    assert!(parser.next().is_none() && parser.next_into(&mut Event::default()).is_none());
    drop(parser);
    assert_eq!(asked, 3);
    let none = Parser::new(tokens([])).next().unwrap().unwrap_err();
    assert_eq!(none.to_string(), "no more tokens at line 1, column 1");
    let read = SourceError::new(ErrorKind::READER, Some("invalid octet"), 3, 255, ZERO, None, ZERO);
    let read = Parser::new(tokens([Err(read)])).next().unwrap().unwrap_err();
    assert_eq!(
        (read.to_string().as_str(), read.position()),
        ("invalid octet at position 3", Some(3))
    );
    assert_eq!(given[3].as_ref().unwrap_err().position(), None);
    let (start, list) = (
        Mark {
            index: 0,
            line: 0,
            column: 0,
        },
        |end| vec![Token::new(TokenData::stream_start(Encoding::UTF8), ZERO, end)],
    );
    let end = Mark {
        index: 5,
        line: 1,
        column: 3,
    };
    for end in [start, end] {
        let by_list = Parser::new(TokenList::from(list(end)))
            .last()
            .unwrap()
            .unwrap_err();
        let by_iterator = Parser::new(tokens(list(end).into_iter().map(Ok)))
            .last()
            .unwrap()
            .unwrap_err();
        assert_eq!(by_list, by_iterator);
    }
}

#[test]
fn limits_end_a_stream() {
    use TokenData::*;
    let nested = || {
        list(vec![
            FlowSequenceStart,
            FlowSequenceStart,
            FlowSequenceEnd,
            FlowSequenceEnd,
        ])
    };
    let count = |max_depth| {
        Parser::new(limited(nested(), max_depth))
            .map(|event| event.map(drop))
            .collect::<Result<Vec<()>, Error>>()
    };
    assert_eq!(count(2).unwrap().len(), 8);
    assert_eq!(count(usize::MAX).unwrap().len(), 8);
    let error = count(1).unwrap_err();
    assert_eq!(
        (error.kind(), error.problem()),
        (ErrorKind::SCANNER, Some("found too many levels"))
    );
    let most = NonZeroU32::new(1).unwrap();
    let error = Documents::new(nested())
        .max_entries(most)
        .next()
        .unwrap()
        .unwrap_err();
    assert_eq!(error.kind(), ErrorKind::MEMORY);
    assert_eq!(Documents::new(nested()).max_entries(NonZeroU32::MAX).count(), 1);
}

#[test]
fn documents_have_paths_sizes_and_duplicate_keys() {
    use TokenData::*;
    let anchor = |name| TokenData::anchor(name).unwrap();
    let alias = |name| TokenData::alias(name).unwrap();
    let pair = |key, value: Vec<TokenData>| [vec![Key, plain(key), Value], value].concat_tokens();
    let twice = vec![
        FlowSequenceStart,
        alias("a"),
        FlowEntry,
        alias("a"),
        FlowSequenceEnd,
    ];
    let tokens = [
        vec![FlowMappingStart],
        pair(
            "x",
            vec![anchor("a"), FlowSequenceStart, plain("1"), FlowSequenceEnd],
        ),
        vec![FlowEntry],
        pair("y", twice),
        vec![FlowEntry],
        pair("x", vec![plain("2")]),
        vec![FlowMappingEnd],
    ]
    .concat_tokens();
    let document = Documents::new(list(tokens)).next().unwrap().unwrap();
    assert_eq!(document.text_at(&["y", "1", "0"]), Some("1"));
    assert_eq!(
        document.at(&["x"]).map(|node| (node.type_(), node.text())),
        Some((NodeType::YAML_SEQUENCE_NODE, None))
    );
    assert_eq!(document.at(&["z"]), None);
    assert_eq!(document.expanded_size(100), Ok(12));
    let error = document.expanded_size(11).unwrap_err();
    assert_eq!(
        error.problem(),
        Some("found too many nodes, with aliases written out")
    );
    let repeated = document.duplicate_key().unwrap().unwrap();
    assert_eq!((repeated.pairs(), repeated.text()), ([0, 2], Some("x")));
    assert_eq!(repeated.mapping(), document.at(&[]).unwrap());
    assert_eq!(repeated.keys().map(|key| key.start_mark.column), [3, 20]);
    assert_eq!(repeated.mark().column, 20);
    assert_eq!(
        repeated.to_string(),
        "found duplicate key \"x\" at line 1, column 21; first at line 1, column 4"
    );
}

/// Lists of tokens, joined.
trait Concat {
    fn concat_tokens(self) -> Vec<TokenData>;
}

impl<I: IntoIterator<Item = Vec<TokenData>>> Concat for I {
    fn concat_tokens(self) -> Vec<TokenData> {
        self.into_iter().flatten().collect()
    }
}

#[test]
fn a_parser_gives_its_source_back() {
    let mut parser = Parser::new(list(vec![plain("a"), TokenData::DocumentStart, plain("b")]));
    assert_eq!(parser.by_ref().take(4).filter(Result::is_ok).count(), 4);
    let rest = parser.into_source();
    let mut parser = yaml_parser_initialize(pokhvizi::kit::Global, rest);
    // The rest has no STREAM-START.
    assert_eq!(
        parser.next().unwrap().unwrap_err().problem,
        Some("did not find expected <stream-start>")
    );
}

#[test]
fn parsers_are_sent_and_told() {
    fn is_sent<T: Send + Sync + std::fmt::Debug>(_: &T) {}
    is_sent(&Parser::new(list(vec![])));
    is_sent(&Documents::new(list(vec![])));
    is_sent(&ComposedEvents::new(list(vec![])));
    is_sent(&PushParser::new());
    is_sent(&PushLoader::new());
    let error = Documents::new(list(vec![TokenData::alias("a").unwrap()]))
        .next()
        .unwrap()
        .unwrap_err();
    is_sent(&error);
    assert_eq!(error.to_string(), "found undefined alias at line 1, column 2");
}
