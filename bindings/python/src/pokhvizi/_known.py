"""PyYAML's `resolve`, if it does what the extension does in its place, or None; and what a loader's class may set."""
from yaml import nodes, resolver
from yaml.nodes import MappingNode, ScalarNode, SequenceNode


class _Like(resolver.BaseResolver):
    def resolve(self, kind, value, implicit):
        if kind is ScalarNode and implicit[0]:
            if value == '':
                resolvers = self.yaml_implicit_resolvers.get('', [])
            else:
                resolvers = self.yaml_implicit_resolvers.get(value[0], [])
            wildcard_resolvers = self.yaml_implicit_resolvers.get(None, [])
            for tag, regexp in resolvers + wildcard_resolvers:
                if regexp.match(value):
                    return tag
            implicit = implicit[1]
        if self.yaml_path_resolvers:
            exact_paths = self.resolver_exact_paths[-1]
            if kind in exact_paths:
                return exact_paths[kind]
            if None in exact_paths:
                return exact_paths[None]
        if kind is ScalarNode:
            return self.DEFAULT_SCALAR_TAG
        elif kind is SequenceNode:
            return self.DEFAULT_SEQUENCE_TAG
        elif kind is MappingNode:
            return self.DEFAULT_MAPPING_TAG


def _told(function):
    """What a function does, but for the meaning of its global names."""
    code = getattr(function, "__code__", None)
    return code and (code.co_code, code.co_consts, code.co_names, code.co_varnames, code.co_flags)


def _has_nodes(names):
    return all(names.get(name) is getattr(nodes, name) for name in ("ScalarNode", "SequenceNode", "MappingNode"))


resolve = resolver.BaseResolver.resolve
if _told(resolve) != _told(_Like.resolve) or not _has_nodes(resolve.__globals__):
    resolve = None


_BOUNDS = {"max_depth", "max_nodes", "max_expanded", "unique_keys"}


def refuse_others(loader):
    """Refuses what a loader's class sets if it may be a misspelt bound: the loader would read without it."""
    for name in vars(loader):
        if name.startswith(("max_", "unique_")) and name not in _BOUNDS:
            raise TypeError("%s.%s is no bound of a loader; the bounds are max_depth, max_nodes, max_expanded, and unique_keys"
                            % (loader.__name__, name))
