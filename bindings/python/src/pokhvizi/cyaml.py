"""PyYAML's loaders that are in C, over the proved parser and composer in place of libyaml's:

    from pokhvizi import CSafeLoader

    yaml.load(text, Loader=CSafeLoader)

A loader reads exactly what libyaml reads, unless its class has `fixes = True`.

`CParser` before a constructor and a resolver of PyYAML's makes another loader, as PyYAML's own `CParser` does.
"""
from yaml.constructor import BaseConstructor, Constructor, FullConstructor, SafeConstructor, UnsafeConstructor
from yaml.resolver import BaseResolver, Resolver

from ._known import refuse_others, resolve
from ._yaml import CParser, know

__all__ = ["CBaseLoader", "CFullLoader", "CLoader", "CParser", "CSafeLoader", "CUnsafeLoader"]

know(resolve)


def _begin_class(loader, **words):
    super(CParser, loader).__init_subclass__(**words)
    refuse_others(loader)


CParser.__init_subclass__ = classmethod(_begin_class)


class CBaseLoader(CParser, BaseConstructor, BaseResolver):
    """As `yaml.CBaseLoader`."""

    def __init__(self, stream):
        CParser.__init__(self, stream)
        BaseConstructor.__init__(self)
        BaseResolver.__init__(self)


class CSafeLoader(CParser, SafeConstructor, Resolver):
    """As `yaml.CSafeLoader`."""

    def __init__(self, stream):
        CParser.__init__(self, stream)
        SafeConstructor.__init__(self)
        Resolver.__init__(self)


class CFullLoader(CParser, FullConstructor, Resolver):
    """As `yaml.CFullLoader`."""

    def __init__(self, stream):
        CParser.__init__(self, stream)
        FullConstructor.__init__(self)
        Resolver.__init__(self)


class CUnsafeLoader(CParser, UnsafeConstructor, Resolver):
    """As `yaml.CUnsafeLoader`."""

    def __init__(self, stream):
        CParser.__init__(self, stream)
        UnsafeConstructor.__init__(self)
        Resolver.__init__(self)


class CLoader(CParser, Constructor, Resolver):
    """As `yaml.CLoader`."""

    def __init__(self, stream):
        CParser.__init__(self, stream)
        Constructor.__init__(self)
        Resolver.__init__(self)
