"""Prints the number of each event's kind (yaml_event_type_t), as soon as the event is there, of YAML on standard input.

    events.py plain|proved|late    PyYAML's parser in Python, or that of bindings/python; over the input once it has ended

Run by clients.sh.
"""
import io
import os
import sys

import yaml
from pokhvizi import SafeLoader

KINDS = ("StreamStart", "StreamEnd", "DocumentStart", "DocumentEnd", "Alias", "Scalar", "SequenceStart", "SequenceEnd",
         "MappingStart", "MappingEnd")


class Pipe:
    """Standard input a byte at a time: PyYAML's reader is a piece ahead of its scanner."""

    def read(self, size):
        return os.read(0, 1)


how = sys.argv[1]
loader = yaml.SafeLoader if how == "plain" else SafeLoader
for event in yaml.parse(io.BytesIO(sys.stdin.buffer.read()) if how == "late" else Pipe(), Loader=loader):
    print(KINDS.index(type(event).__name__.removesuffix("Event")) + 1, flush=True)
