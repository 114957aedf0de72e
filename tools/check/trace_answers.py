"""Positions of generated code to look up in a map, and the answers of peer.py, which shares no code with the library, in the form
of bindings/*/trace_all.*: at up to 2,000 tokens, beside them, and past the end. For tools/check/maps."""

import json

import peer


class PassedOver(Exception):
    """Why a file has no answers."""


def positions_of(tokens, most=2000):
    some = tokens[:: len(tokens) // most + 1]
    for line, column, *_ in some:
        yield from ((line, at) for at in (column - 1, column, column + 1) if 0 <= at < 2**32)
    last = tokens[-1][0] if tokens else 0
    yield from ((line, at) for line in (0, last, last + 1, 2**32 - 1) for at in (0, 2**32 - 1))


def text_of(value, token):
    if token is None or token[2] is None:
        return "nothing" if token is None else "unmapped"
    _, _, source, line, column, name = token
    text = f"{value['sources'][source]}:{line}:{column}"
    return text if name is None else f"{text} {value['names'][name]}"


def is_in_range(value, token):
    limits = 2**32, 2**32, len(value["sources"]), 2**32, 2**32, len(value.get("names", []))
    is_mapped = token[2] is not None
    return all(it is None or 0 <= it < limit for it, limit in list(zip(token, limits))[: None if is_mapped else 2])


def traced(text):
    """The map that the bytes of a file say, and its tokens, if it is one that can be traced."""
    try:
        value = json.loads(text.decode())
        if value["version"] != 3:
            raise PassedOver("not of version 3")
        value, tokens = peer.read(value)
        if None in value["sources"]:
            raise PassedOver("a source is null")
        "".join([*value.get("names", []), *value["sources"]]).encode()
    except (ValueError, LookupError, TypeError, AttributeError, RecursionError) as fault:
        raise PassedOver("not a map") from fault
    if not all(is_in_range(value, it) for it in tokens):
        raise PassedOver("a number out of range")
    if any(it[:2] > after[:2] for it, after in zip(tokens, tokens[1:])):
        raise PassedOver("not sorted")
    return value, tokens


def answered(text):
    """Positions, and two answers for each: what the map says there, and what it says clamped."""
    value, tokens = traced(text)
    table, positions = peer.Table(tokens), list(positions_of(tokens))
    return positions, [text_of(value, table.find(*at, clamped)) for at in positions for clamped in (False, True)]
