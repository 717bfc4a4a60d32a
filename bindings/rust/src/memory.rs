//! Memory as the original takes it: blocks of the global allocator, each with its size before the bytes that are used.
//!
//! The original frees blocks that are made here, and blocks that it made are freed here. So Cargo.toml names one version of it,
//! and tests/memory.rs compares the two.

use original::{yaml_mark_t, yaml_stack_t};
use std::alloc::{alloc, dealloc, handle_alloc_error, realloc, Layout};
use std::borrow::Borrow;
use std::ffi::CStr;
use std::hash::{Hash, Hasher};
use std::mem::{align_of, size_of, ManuallyDrop};
use std::ptr::{self, NonNull};

const ALIGN: usize = align_of::<yaml_mark_t>();
/// A size, in as many bytes as keep what is after it aligned.
const HEADER: usize = (size_of::<usize>() + ALIGN - 1) / ALIGN * ALIGN;

/// Returns the layout of a block with so many bytes to use.
#[inline]
fn layout_of(size: usize) -> Layout {
    let layout = Layout::from_size_align(size.saturating_add(HEADER), ALIGN);
    layout.unwrap_or_else(|_| handle_alloc_error(Layout::new::<u64>()))
}

/// Returns the bytes to use of a block, before which its size is written.
#[inline]
unsafe fn begin(block: *mut u8, layout: Layout) -> *mut u8 {
    if block.is_null() {
        handle_alloc_error(layout);
    }
    block.cast::<usize>().write(layout.size());
    block.add(HEADER)
}

/// Makes a block of so many bytes, which aren't set.
#[inline]
pub fn make(size: usize) -> *mut u8 {
    let layout = layout_of(size);
    // SAFETY: a block has a header.
    unsafe { begin(alloc(layout), layout) }
}

/// Returns a block and its layout by the bytes to use.
#[inline]
unsafe fn whole(used: *mut u8) -> (*mut u8, Layout) {
    let block = used.sub(HEADER);
    (
        block,
        Layout::from_size_align_unchecked(block.cast::<usize>().read(), ALIGN),
    )
}

/// How many entries a stack has room for at first.
const ROOM: usize = 16;

/// Makes a stack without entries.
#[inline]
pub fn stack<T>() -> yaml_stack_t<T> {
    let start: *mut T = make(ROOM * size_of::<T>()).cast();
    yaml_stack_t {
        start,
        end: start.wrapping_add(ROOM),
        top: start,
    }
}

/// Returns the place of one entry more of a stack, which isn't set.
#[inline]
pub unsafe fn push<T>(stack: &mut yaml_stack_t<T>) -> *mut T {
    if stack.top == stack.end {
        double(stack);
    }
    let place = stack.top;
    stack.top = place.add(1);
    place
}

/// Doubles the room of a full stack.
#[cold]
unsafe fn double<T>(stack: &mut yaml_stack_t<T>) {
    let count = stack.top.offset_from(stack.start) as usize;
    let (block, layout) = whole(stack.start.cast());
    let grown = layout_of((2 * count).saturating_mul(size_of::<T>()));
    stack.start = begin(realloc(block, layout, grown.size()), grown).cast();
    stack.top = stack.start.add(count);
    stack.end = stack.start.add(2 * count);
}

/// Returns the bytes of a text, before its first zero byte.
#[inline]
pub unsafe fn bytes<'a>(text: *const u8) -> &'a [u8] {
    CStr::from_ptr(text.cast()).to_bytes()
}

/// A text with a zero byte after it, until a node, an event or a document takes it.
pub struct Text(NonNull<u8>);

impl Text {
    /// Takes a text from what owns it, which then has none.
    #[inline]
    pub fn take(from: &mut *mut u8) -> Option<Text> {
        NonNull::new(std::mem::replace(from, ptr::null_mut())).map(Text)
    }

    /// Makes a text of so many bytes, which the call writes.
    #[inline]
    pub fn of_length(length: usize, write: impl FnOnce(*mut u8)) -> Text {
        let made = make(length.saturating_add(1));
        write(made);
        // SAFETY: the block has one byte more, and is not at 0.
        unsafe {
            made.add(length).write(0);
            Text(NonNull::new_unchecked(made))
        }
    }

    #[inline]
    pub fn copy(text: &[u8]) -> Text {
        // SAFETY: the block is new, and as long as the text.
        Text::of_length(text.len(), |made| unsafe {
            ptr::copy_nonoverlapping(text.as_ptr(), made, text.len())
        })
    }

    /// Returns the bytes before the first zero byte.
    #[inline]
    pub fn bytes(&self) -> &[u8] {
        self.c_str().to_bytes()
    }

    /// Returns the bytes up to the first zero byte.
    #[inline]
    pub fn c_str(&self) -> &CStr {
        // SAFETY: a zero byte is after the text.
        unsafe { CStr::from_ptr(self.0.as_ptr().cast()) }
    }

    /// Returns the text, which has to be freed with an event, a node or a document.
    #[inline]
    pub fn into_raw(self) -> *mut u8 {
        ManuallyDrop::new(self).0.as_ptr()
    }
}

impl Drop for Text {
    #[inline]
    fn drop(&mut self) {
        // SAFETY: the text is a block.
        unsafe {
            let (block, layout) = whole(self.0.as_ptr());
            dealloc(block, layout);
        }
    }
}

impl Borrow<[u8]> for Text {
    fn borrow(&self) -> &[u8] {
        self.bytes()
    }
}

impl PartialEq for Text {
    fn eq(&self, other: &Text) -> bool {
        self.bytes() == other.bytes()
    }
}

impl Eq for Text {}

impl Hash for Text {
    /// A text has the hash of its bytes, by which it is found in a map.
    fn hash<H: Hasher>(&self, hasher: &mut H) {
        self.bytes().hash(hasher);
    }
}
