"""Draws nodes whose keys often come twice, for unique.py and clients/unique_keys.py."""

KEYS = ["a", "b", "'a'", "1", "!!str 1", "[a]", "true", '"b"', "!t a", "{a: 1, a: 2}", "{a: b}", "c", "d", "e", "f", "<<"]
# scalars that loaders may take for something else than a string, or that look so
OPEN = ["1", "'1'", "! '1'", "yes", '"yes"', "Null", "'Null'", "~", "'~'", "''", "!!str", "3rd", "'3rd'", "-f", "'-f'", "0x1F", "'0x1F'",
        "1e3", '"1e3"', "+.INF", "'+.INF'", "2001-01-01", "'2001-01-01'", "!!int 1", "!!str a", "12:30", "'12:30'", "-", "=", "'='", ".", "'.'",
        "never", "'never'", "nULl x", "'nULl x'", "1,2", "-.", "'-.'", "0o7", "'0o7'", "<", "'<'", "^", "'^'", "\"a\\0\"", "\"1\\0\""]


def small(random_, anchors):
    """Draws a key: an alias of an anchor that came before, or a node that may have an anchor of its own."""
    if anchors and random_.random() < 0.2:
        return "*" + random_.choice(anchors)
    name = ""
    if random_.random() < 0.15:
        anchors.append(f"x{len(anchors)}")
        name = f"&{anchors[-1]} "
    return name + random_.choice(KEYS)


def drawn(random_, anchors, depth=0):
    """Draws a node in flow style."""
    kind = random_.random()
    if depth == 4 or kind < 0.4:
        return small(random_, anchors)
    if kind < 0.6:
        return "[" + ", ".join([drawn(random_, anchors, depth + 1) for _ in range(random_.randrange(3))]) + "]"
    pairs = []
    for _ in range(random_.randrange(5)):
        key = small(random_, anchors)
        pairs.append(f"? {key} : {drawn(random_, anchors, depth + 1)}")
    return "{" + ", ".join(pairs) + "}"
