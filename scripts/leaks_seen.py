#!/usr/bin/env python3
"""Plants leaks, which no contract rules out, and fails where the tests of memory see one not.

    python3 scripts/leaks_seen.py [LEAK..]              (no word: each of LEAKS)

In a copy each is planted in turn, and the tests `memory` and `flat` of the crate `pokhvizi` are built over it: one of these has
to fail, and to say that memory is left. Texts are let go of by hand in `libyaml_events/src/states`, where `mem::forget` stands in
place of a drop: LEAKS has one at each such place but `forget_anchor`, over which no run is known that holds an anchor, and one for
the bound on what is kept, for handles, and for half a document. Some seconds each; needs cargo.

Run by hand, after such a place or one of these tests changed.
"""
import os
import re
import shutil
import subprocess
import sys
import tempfile
from pathlib import Path

from answers import TOP, wrong_words

CONTENTS = "libyaml_events/src/states/contents.rt"
HANDLES = "libyaml_events/src/handle_table.rt"
# name: the file, the function, what stands in it, and what comes in its place
LEAKS = {
    "content_with_properties_is_light": (CONTENTS, "is_light", "anchor.is_none() && tag.is_none()", "anchor.is_none() || tag.is_none() || true"),
    "directives_are_light": (CONTENTS, "is_light", "event.tag_directives.capacity() == 0", "true"),
    "alias_is_light": (CONTENTS, "is_light", "unnamed_yaml_event_t_data::Alias(_) => return false", "unnamed_yaml_event_t_data::Alias(_) => return true"),
    "texts_of_a_kept_content_forgotten": (CONTENTS, "drop_option", "*text = None;", "mem::forget(text.take());"),
    "directives_forgotten": (CONTENTS, "let_go_texts", "_ => *content = unnamed_yaml_event_t_data::NoEvent,", "_ => mem::forget(mem::replace(content, unnamed_yaml_event_t_data::NoEvent)),"),
    "text_kept_before_forgotten": (CONTENTS, "release", "*spare = taken;", "mem::forget(mem::replace(spare, taken));"),
    "long_text_kept": (CONTENTS, "release", " && room <= MAX_SPARE", ""),
    "properties_forgotten": (CONTENTS, "drop_text", "release(spare, text);", "mem::forget(mem::replace(text, String::new(*spare.allocator())));"),
    "tag_forgotten": (CONTENTS, "put_text", "release(spare, earlier);", "let _ = earlier.len().max(spare.len());"),
    "alias_before_a_scalar_forgotten": (CONTENTS, "put_scalar_in_place", "take_memory(alloc, &mut event.anchor)", "String::new(*event.anchor.allocator())"),
    "scalar_before_an_alias_forgotten": (CONTENTS, "replace_by_alias", "take_memory(alloc, &mut event.value)", "String::new(*event.value.allocator())"),
    **{
        f"content_forgotten_{function}": (CONTENTS, function, "make_light(spare, content);", "let _ = spare.len();")
        for function in (
            "put_scalar_in_place", "put_scalar", "replace_by_empty_scalar", "replace_by_sequence_start", "replace_by_mapping_start",
            "replace_by_sequence_end", "replace_by_mapping_end", "replace_by_alias",
        )
    },
    "content_forgotten_put_node": ("libyaml_events/src/states/after_properties.rt", "put_node", "make_light(&mut self.spare, &mut out.content);", "let _ = self.spare.len();"),
    "handles_forgotten": (HANDLES, "clear", "self.first.clear();", "let alloc = *self.first.allocator(); std::mem::forget(std::mem::replace(&mut self.first, Vec::new(alloc)));"),
    "later_handles_forgotten": (HANDLES, "clear", "self.others = BTreeMap::new(*self.first.allocator());", "std::mem::forget(std::mem::replace(&mut self.others, BTreeMap::new(*self.first.allocator())));"),
    "half_a_document_forgotten": ("libyaml_loader/src/composer.rt", "keep", "self.ctx = loader_ctx::new(self.ctx.alloc, self.max_entries);", "let fresh = loader_ctx::new(self.ctx.alloc, self.max_entries); mem::forget(mem::replace(&mut self.ctx, fresh));"),
}


def planted(leak, crates):
    """The file of a leak in this folder of crates, and its text with the leak."""
    name, function, old, new = LEAKS[leak]
    path = crates / name
    text = path.read_text()
    start = text.find(f"fn {function}(")
    place = text.find(old, start)
    end = text.find("\nfn ", start)
    if start < 0 or place < 0 or -1 < end < place:
        sys.exit(f"{leak}: `{old}` stands not in {function} of {name}")
    return path, text[:place] + new + text[place + len(old) :]


def seen(leak, room):
    """Whether the tests see a leak, planted in this copy, and in words where; what was said if they aren't built."""
    path, text = planted(leak, room / "crates")
    was = path.read_text()
    path.write_text(text)
    run = subprocess.run(["cargo", "test", "--offline", "--no-fail-fast", "--test", "memory", "--test", "flat"], cwd=room,
                         env={**os.environ, "CARGO_TARGET_DIR": str(room / "target")}, stdin=subprocess.DEVNULL, capture_output=True, text=True)
    path.write_text(was)
    if "running" not in run.stdout:
        return f"not built: {run.stderr[-1000:]}", False
    tests = re.findall(r"^---- (\S+) stdout ----$(?=(?:\n(?!----).*)*left behind)", run.stdout, re.MULTILINE)
    return (f"seen by {' '.join(tests)}", True) if run.returncode and tests else ("not seen", False)


def main(words):
    if not set(words) <= set(LEAKS):
        wrong_words(__doc__)
    unseen = 0
    with tempfile.TemporaryDirectory() as folder:
        room = Path(folder) / "copy"
        shutil.copytree(TOP, room, symlinks=True, ignore=shutil.ignore_patterns(".git", "out", "target"))
        for leak in words or LEAKS:
            says, is_seen = seen(leak, room)
            print(f"{leak}: {says}", flush=True)
            unseen += not is_seen
    if unseen:
        sys.exit(f"{unseen} not seen")


if __name__ == "__main__":
    main(sys.argv[1:])
