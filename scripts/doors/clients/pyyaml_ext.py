"""Runs PyYAML's own tests of its C form, with this package's extension in place of `yaml._yaml.CParser` in all its C loaders.

    pyyaml_ext.py plain|proved|fixes [WORDS OF PyYAML'S test_yaml_ext.py]

The folder is that of the tests. With `proved`, it first makes sure that the extension is in place; with `fixes` the loaders have the
fixes, too.

Run by clients.sh.
"""
import sys

sys.path.insert(0, ".")
import yaml

how = sys.argv.pop(1)
if how != "plain":
    import pokhvizi

    for name in ("CBaseLoader", "CSafeLoader", "CFullLoader", "CUnsafeLoader", "CLoader"):
        setattr(yaml, name, getattr(pokhvizi, name))
        setattr(yaml.cyaml, name, getattr(pokhvizi, name))
        getattr(pokhvizi, name).fixes = how == "fixes"
    fixed = type("Fixed", (yaml.CSafeLoader,), {"fixes": True})
    assert [node.value for node in yaml.compose_all("a\n...\nb\n", Loader=fixed)] == ["a", "b"]

import test_appliance
import test_yaml_ext

sys.exit(0 if test_appliance.run([test_yaml_ext]) else 1)
