"""Runs PyYAML's own tests of its form in Python, with this parser in place of `yaml.parser.Parser` in all its loaders.

    pyyaml_pure.py plain|proved [WORDS OF PyYAML'S test_yaml.py]

The folder is that of the tests. With `proved`, it first makes sure that the parser is in place.

Run by clients.sh.
"""
import sys

sys.path.insert(0, ".")
import yaml

if sys.argv.pop(1) == "proved":
    import pokhvizi

    for name in ("current_event", "failure", "events", "check_event", "peek_event", "get_event", "next_event", "dispose"):
        setattr(yaml.parser.Parser, name, vars(pokhvizi.Parser)[name])
    assert [node.value for node in yaml.compose_all("a\n...\nb\n", Loader=yaml.SafeLoader)] == ["a", "b"]

import test_appliance
import test_yaml

sys.exit(0 if test_appliance.run([test_yaml]) else 1)
