//! Blocks of memory of this crate and of the original: each is freed as it was made, none is left, and a load asks for no
//! more of them than the original's.

use std::alloc::{GlobalAlloc, Layout, System};
use std::cell::Cell;
use std::mem::MaybeUninit;
use unsafe_libyaml::*;

/// Of the thread's blocks: how many were made, how many bytes are left, and how many were freed otherwise than made.
#[derive(Clone, Copy, Default)]
struct Count {
    made: usize,
    left: usize,
    otherwise: usize,
}

thread_local! {
    static COUNT: Cell<Count> = const { Cell::new(Count { made: 0, left: 0, otherwise: 0 }) };
}

/// Changes the thread's count, and returns it.
fn count(change: impl FnOnce(&mut Count)) -> Count {
    COUNT.with(|cell| {
        let mut count = cell.get();
        change(&mut count);
        cell.set(count);
        count
    })
}

/// The system's allocator, which notes before each block what was asked for.
struct Noting;

const NOTE: usize = 128;

fn with_note(layout: Layout) -> Layout {
    assert!(layout.align() <= NOTE);
    Layout::from_size_align(layout.size() + NOTE, NOTE).unwrap()
}

unsafe impl GlobalAlloc for Noting {
    unsafe fn alloc(&self, layout: Layout) -> *mut u8 {
        let block = System.alloc(with_note(layout));
        assert!(!block.is_null());
        block.cast::<Layout>().write(layout);
        count(|count| {
            count.made += 1;
            count.left = count.left.wrapping_add(layout.size());
        });
        block.add(NOTE)
    }

    unsafe fn dealloc(&self, used: *mut u8, layout: Layout) {
        let block = used.sub(NOTE);
        let noted = block.cast::<Layout>().read();
        count(|count| {
            count.otherwise += usize::from(noted != layout);
            count.left = count.left.wrapping_sub(noted.size());
        });
        System.dealloc(block, with_note(noted));
    }
}

#[global_allocator]
static NOTING: Noting = Noting;

/// Parses all events of a text, and then loads all its documents, by these functions; returns how many blocks the loads made.
macro_rules! read_by {
    ($parse:path, $load:path, $delete:path, $text:expr) => {{
        let mut parser = MaybeUninit::<yaml_parser_t>::uninit();
        let parser = parser.as_mut_ptr();
        let mut event = MaybeUninit::<yaml_event_t>::uninit();
        assert!(yaml_parser_initialize(parser).ok);
        yaml_parser_set_input_string(parser, $text.as_ptr(), $text.len() as u64);
        while $parse(parser, event.as_mut_ptr()).ok && (*event.as_ptr()).type_ != YAML_STREAM_END_EVENT {
            yaml_event_delete(event.as_mut_ptr());
        }
        $delete(parser);

        let mut document = MaybeUninit::<yaml_document_t>::uninit();
        assert!(yaml_parser_initialize(parser).ok);
        yaml_parser_set_input_string(parser, $text.as_ptr(), $text.len() as u64);
        let made = count(|_| {}).made;
        while $load(parser, document.as_mut_ptr()).ok && !yaml_document_get_root_node(document.as_mut_ptr()).is_null() {
            yaml_document_delete(document.as_mut_ptr());
        }
        yaml_document_delete(document.as_mut_ptr());
        $delete(parser);
        count(|_| {}).made - made
    }};
}

/// Returns how many blocks the loads of a text make, by this crate and by the original.
unsafe fn blocks(text: &str) -> (usize, usize) {
    let before = count(|_| {});
    let ours = read_by!(yaml_parser_parse, yaml_parser_load, yaml_parser_delete, text);
    let after = count(|_| {});
    assert_eq!(after.left, before.left, "bytes are left of {text}");
    assert_eq!(after.otherwise, 0, "a block is freed otherwise than made of {text}");
    let theirs = read_by!(
        original::yaml_parser_parse,
        original::yaml_parser_load,
        original::yaml_parser_delete,
        text
    );
    (ours, theirs)
}

#[test]
fn blocks_are_freed_as_made_and_no_more_than_the_originals() {
    let items = "- some words\n- {a: [b, c], ? d}\n".repeat(40);
    let longer = format!("!!{}", "x".repeat(100));
    let whole = [
        items.as_str(),
        "- a\n- 'b'\n- \"c\"\n-\n",
        "[]",
        "{}",
        "a: 1\n---\nb: 2\n---\nc: 3\n...\n",
        "%YAML 1.1\n---\n- !!str a\n- !b c\n- ! d\n- !<e> f\n- !<e%20f> g\n",
    ];
    // A map finds what the original looks for in a list, and a tag isn't joined where a text was.
    let others = [
        "- &a b\n- &c [*a]\n- &d {*a : *c}\n",
        "%TAG ! tag:example.com,2000:\n%TAG !e! tag:e.com,2000:\n---\n[!a b, !e!c d]\n--- e\n",
        longer.as_str(),
        "",
    ];
    // Each ends with a fault: in a document, after properties, in a directive.
    let broken = [
        "[a, b",
        "- &a !!b c: ]",
        "- &a b\n- &a c\n",
        "%YAML 1.1\n%YAML 1.1\n---\n",
        "*a",
        "!e!a b",
        "%TAG !e! a\n%TAG !e! b\n---\n",
        "a: [!!b &c",
    ];
    unsafe {
        // The first of the process makes what stays.
        blocks("a");
        for text in whole {
            let (ours, theirs) = blocks(text);
            // A parser has a run with two stacks, and once a stack for its loads.
            assert!(ours <= theirs + 4, "{ours} blocks, the original's {theirs}: {text}");
        }
        for text in others.iter().chain(&broken) {
            blocks(text);
        }
    }
}
