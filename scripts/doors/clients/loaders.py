"""Names the files that a loader of PyYAML and a proved one read differently: other documents, events or errors.

    loaders.py [--turned] FOLDER..

Events are compared without marks; errors with their text and snippet. Prints a line for each file
that differs, its name and how. With `--turned` the proved loader reads another text, so all have to differ. The last line,
on standard error, has how many were read.

Run by clients.sh.
"""
import os
import sys

import yaml
from pokhvizi import Marks, SafeLoader

Marks.FEW = 0  # marks are forgotten at each event: an error shows one that was needed
FIELDS = "anchor", "tag", "implicit", "value", "style", "flow_style", "explicit", "version", "tags", "encoding"


def outcome(read, text, loader):
    try:
        return read(text, loader)
    except Exception as error:
        return type(error).__name__, str(error)


def events(text, loader):
    return [(type(event).__name__, *(getattr(event, field, None) for field in FIELDS))
            for event in yaml.parse(text, Loader=loader)]


def documents(text, loader):
    return [repr(document) for document in yaml.load_all(text, Loader=loader)]


def said(made):
    return made[1].split("\n")[-1 if len(made[1].split("\n")) < 2 else 0] if isinstance(made, tuple) else "read"


# More events than tokens; more bytes of tags than the text has; a handle that two documents declare.
MADE = {"documents": b"---\n" * 500, "tags": b"%TAG !e! tag:" + b"x" * 2000 + b"\n---\n" + b"- &a !e!b c\n" * 100,
        "handles": b'%TAG !e! tag:a,2000:\n--- !e!y "x"\n%TAG !e! tag:b,2000:\n--- !e!y z\n'}


def texts(folders):
    """Gives the name and the text of each file in the folders, and of those that are made."""
    yield from MADE.items()
    for name, path in files(folders):
        with open(path, "rb") as file:
            yield name, file.read()


def files(folders):
    for folder in folders:
        for path, names, files_there in os.walk(folder):
            names.sort()
            for name in sorted(files_there):
                if not name.endswith((".py", ".pyc")):
                    yield os.path.relpath(os.path.join(path, name), folder), os.path.join(path, name)


def main(words):
    turned = words[:1] == ["--turned"]
    count = 0
    for name, text in texts(words[turned:]):
        count += 1
        for read in (events, documents):
            plain = outcome(read, text, yaml.SafeLoader)
            proved = outcome(read, text + b"\n---\nturned: [" if turned else text, SafeLoader)
            if plain != proved:
                print(name, read.__name__, said(plain), "|", said(proved), sep="\t")
    print("%d texts" % count, file=sys.stderr)


main(sys.argv[1:])
