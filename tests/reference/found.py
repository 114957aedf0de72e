#!/usr/bin/env python3
"""What a map means as it is found: the map, and what was mended. For each JSON string a line of standard input, a line of output: the
canonical JSON text of the map and the lines of its mends, or the error as `error: ..`."""
import base64, json, sys
from pathlib import Path
from urllib.parse import unquote_to_bytes

sys.path.insert(0, str(Path(__file__).resolve().parents[2] / "tools"))
import peer

MAX, DIGITS = 4294967295, "ABCDEFGHIJKLMNOPQRSTUVWXYZabcdefghijklmnopqrstuvwxyz0123456789+/"
NONE: dict = {"version": None, "file": None, "sourceRoot": None, "names": [], "sourcesContent": None, "debugId": None, "ignoreList": None}


class Fault(Exception):
    """What is read instead of a map."""


def shape(key):
    return Fault(f"JSON parsing error: field {key} is missing or has the wrong type")


# ---- the text, opened

def base64_bytes(data):
    """Padding may be missing, and bits behind the last byte are 0."""
    whole = data.rstrip(b"=")
    whole += b"=" * (-len(whole) % 4)
    found = base64.b64decode(whole, validate=True)
    if len(data) > len(whole) or base64.b64encode(found) != whole:
        raise ValueError
    return found


def data_text(url):
    """The text in a data URL of JSON; None for any other text, and for data that are no text."""
    scheme, colon, rest = url.encode().partition(b":")
    head, comma, data = rest.partition(b"#")[0].partition(b",")
    if not (scheme.lower() == b"data" and comma and head.partition(b";")[0].lower() in (b"application/json", b"text/json")):
        return None
    try:
        data = unquote_to_bytes(data)
        return (base64_bytes(data) if head.lower().endswith(b";base64") else data).decode()
    except ValueError:
        return None


def opened(text):
    """The text that is read as JSON, and what was passed over and opened to find it."""
    lines = []
    if text.startswith("\ufeff"):
        text = text[1:]
        lines.append("the byte order mark in front is passed over")
    if text.startswith(")]}'"):
        text = text.partition("\n")[2]
        lines.append("the first line, which begins with )]}', is passed over")
    data = data_text(text)
    if data is not None:
        text = data
        lines.append("the text is a data URL, and the text in it is read")
    return text, lines


# ---- the JSON text: `serde_json` reads no more than this

def refused(_):
    raise ValueError


def number(text):
    value = float(text)
    if value in (float("inf"), float("-inf")):
        raise ValueError
    return value


def whole(text):
    value = int(text)
    return value if -2**63 <= value < 2**64 and text != "-0" else number(text)


def depth(value):
    inner = value.values() if isinstance(value, dict) else value if isinstance(value, list) else None
    return 0 if inner is None else 1 + max(map(depth, inner), default=0)


def json_value(text):
    try:
        value = json.loads(text, parse_float=number, parse_int=whole, parse_constant=refused)
        text.encode(), json.dumps(value, ensure_ascii=False).encode()
        if depth(value) > 127:
            raise ValueError
        return value
    except (ValueError, RecursionError):
        raise Fault("JSON parsing error: the text is not JSON")


# ---- the value, mended

def is_id(value, count=MAX + 1):
    return type(value) is int and 0 <= value < count


def bad(entries, may_stay):
    return [k for k, entry in enumerate(entries) if not may_stay(entry)]


def mended_list(value, key, may_stay, stand_in, no_list, line):
    """A list that may be missing, with its bad entries replaced or, if `stand_in` is empty, left out."""
    given = value.get(key)
    if given is None:
        return []
    if not isinstance(given, list):
        value[key] = None
        return [no_list]
    value[key] = [it for entry in given for it in ([entry] if may_stay(entry) else stand_in)]
    return [line.format(k) for k in bad(given, may_stay)]


def mended_version(value):
    version = value.get("version")
    if version != "3" and not (type(version) is float and version == 3):
        return []
    value["version"] = 3
    return ["version is 3.0 or the text 3, and is read as 3"]


def mended(value):
    """Mends an object in place, and lists what was mended."""
    lines = mended_version(value)
    if "sources" not in value:
        value["sources"] = []
        lines.append("sources is missing, and is read as an empty list")
    elif isinstance(value["sources"], list):
        lines += mended_list(value, "sources", lambda it: it is not None, [""], "", "source {} is null, and is read as an empty text")
    lines += mended_list(value, "sourcesContent", lambda it: it is None or isinstance(it, str), [None],
                         "sourcesContent is no list, and is read as missing", "content {} is neither a text nor null, and is read as null")
    if value.get("names", []) is None:
        value["names"] = []
        lines.append("names is null, and is read as missing")
    count = len(value["sources"]) if isinstance(value["sources"], list) else 0
    for key in ("ignoreList", "x_google_ignoreList"):
        if key == "ignoreList" or value.get("ignoreList") is None:
            lines += mended_list(value, key, lambda it: is_id(it, count), [], f"{key} is no list, and is read as missing",
                                 f"entry {{}} of {key} is no id of a source, and is left out")
    return lines


# ---- the exact reader, by its rules

def checked(value, key, holds, missing):
    given = value.get(key)
    if given is None and (missing == "null" or missing == "missing" and key not in value):
        return NONE[key]
    if not holds(given):
        raise shape(key)
    return given


def is_text(value):
    return isinstance(value, str)


def all_of(holds):
    return lambda value: isinstance(value, list) and all(map(holds, value))


def file_of(value):
    if not is_id(value.get("version")):
        raise shape("version")
    if value["version"] != 3:
        raise Fault(f"JSON parsing error: unsupported source map version: {value['version']}")
    return checked(value, "file", is_text, "null")


def fields(value):
    ids = "ignoreList" if value.get("ignoreList") is not None else "x_google_ignoreList"
    found = {"file": file_of(value)}
    for key, holds, missing in (
            ("mappings", is_text, ""), ("sourceRoot", is_text, "null"), ("sources", all_of(is_text), ""),
            ("sourcesContent", all_of(lambda it: it is None or is_text(it)), "null"), ("names", all_of(is_text), "missing"),
            ("debugId", is_text, "null")):
        found[key] = checked(value, key, holds, missing)
    given = value.get(ids)
    if given is not None and not all_of(is_id)(given):
        raise shape(ids)
    for id in given or []:
        if id >= len(found["sources"]):
            raise Fault(f"Reference to non-existing source at position {id}")
    return found | {"ignoreList": given}


def in_range(value):
    if value < 0:
        raise Fault("Mapping segment had an unsupported size of 0")
    if value > MAX:
        raise Fault("The input encoded a number that didn't fit into i64")
    return value


def numbers(segment):
    values = [max(DIGITS.find(chr(byte)), -1) % 64 for byte in segment]
    ends = [k + 1 for k, it in enumerate(values) if it < 32]
    for start, end in zip([0, *ends], ends if ends and ends[-1] == len(values) else [*ends, len(values)]):
        run = values[start:end]
        if len(run) > 13 or len(run) == 13 and run[12] % 32 > 7:
            raise Fault("The input encoded a number that didn't fit into i64")
        if run[-1] >= 32:
            raise Fault("VLQ string was malformed and data was left over")
        raw = sum(it % 32 << 5 * k for k, it in enumerate(run))
        yield raw // 2 * (-1 if raw % 2 else 1)


def tokens_of(mappings, names, sources):
    """Lists of line, column, source line and column, source id and name id; the counts are taken as at most MAX."""
    sums, tokens = [0] * 5, []
    for line, segments in enumerate(mappings.encode().split(b";")):
        sums[0] = 0
        for segment in filter(None, segments.split(b",")):
            given = list(numbers(segment))
            sums[0] = in_range(sums[0] + given[0])
            if len(given) not in (1, 4, 5):
                raise Fault(f"Mapping segment had an unsupported size of {len(given)}")
            before = sums[1]
            sums = [it + (given[k] if 0 < k < len(given) else 0) for k, it in enumerate(sums)]
            if len(given) > 1:
                if not 0 <= sums[1] < min(sources, MAX):
                    raise Fault(f"Reference to non-existing source at position {before}")
                in_range(sums[2]), in_range(sums[3])
            if len(given) == 5 and not 0 <= sums[4] < min(names, MAX):
                raise Fault(f"Reference to non-existing name at position {sums[4] % 2**32}")
            tokens.append([line, sums[0], sums[2], sums[3], sums[1] if len(given) > 1 else None, sums[4] if len(given) == 5 else None])
    return tokens


# ---- a map by itself

def with_ids(given):
    """Its tokens with their ids in range, and what was mended in them."""
    tokens, names, sources = tokens_of(given["mappings"], MAX, MAX), len(given["names"]), len(given["sources"])
    unmapped = [t for t in tokens if t[4] is not None and t[4] >= sources]
    nameless = [t for t in tokens if t not in unmapped and t[5] is not None and t[5] >= names]
    tokens = [[*t[:2], 0, 0, None, None] if t in unmapped else [*t[:5], None] if t in nameless else t for t in tokens]
    lines = [(unmapped, "tokens with a source id out of range, which are read as unmapped: {}"),
             (nameless, "tokens with a name id out of range, which are read without a name: {}")]
    return tokens, [line.format(len(them)) for them, line in lines if them]


def plain_map(value):
    """The fields of a map by itself, with `tokens` as they are listed, and what was mended in it."""
    lines = mended(value)
    given = fields(value)
    given["tokens"], more = with_ids(given)
    return given, lines + more


# ---- an indexed map

def place_of(section, before, k):
    """Where a section begins: not before the one in front of it."""
    if not isinstance(section, dict):
        raise shape("sections")
    offset = section.get("offset")
    if not (isinstance(offset, dict) and is_id(offset.get("line")) and is_id(offset.get("column"))):
        raise shape("offset")
    place = [offset["line"], offset["column"]]
    if before is not None and place < before:
        raise Fault(f"Section {k} begins before the end of what is in front of it")
    return place


def moved(token, place, names, sources):
    """A token of a section in the join, after so many names and sources."""
    line, column, src_line, src_col, source, name = token
    raised = lambda id, count: None if id is None else id + count
    return [line + place[0], column + place[1] * (line == 0), src_line, src_col, raised(source, sources), raised(name, names)]


def joined(sections):
    """The join of maps, each at its place. A token that is equal to the one in front, of the map before, is left out."""
    join = NONE | {"names": [], "sources": [], "sourcesContent": [], "tokens": []}
    for given, place in sections:
        names, sources = len(join["names"]), len(join["sources"])
        tokens = [moved(t, place, names, sources) for t in given["tokens"]]
        join["tokens"] += tokens[1:] if tokens and join["tokens"][-1:] == tokens[:1] else tokens
        if given["ignoreList"] is not None:
            join["ignoreList"] = (join["ignoreList"] or []) + [id + sources for id in given["ignoreList"]]
        join["names"], join["sources"] = join["names"] + given["names"], join["sources"] + given["sources"]
        count = len(given["sources"])
        join["sourcesContent"] += ((given["sourcesContent"] or []) + [None] * count)[:count]
    if any(max(t[:2]) > MAX for t in join["tokens"]):
        raise Fault("A line, an id or a count is too large")
    return join


def reach(tokens, place, nexts):
    """The tokens of a section behind the beginning of the next one, if the last one listed is: only then the exact reader refuses it."""
    behind = [t for t in tokens if any(moved(t, place, 0, 0)[:2] > it for it in nexts)]
    return behind if tokens and tokens[-1] in behind else []


def indexed_map(value):
    """The join of the sections, each cut where it reaches into the next one, and what was mended in them."""
    mends = mended_version(value)
    file, sections, before = file_of(value), [], None
    if not isinstance(value["sections"], list):
        raise shape("sections")
    for k, section in enumerate(value["sections"]):
        before = place_of(section, before, k)
        inner = section.get("map")
        if not isinstance(inner, dict) or inner.get("sections") is not None:
            raise shape("map")
        sections.append((*plain_map(inner), before))
    cut = []
    for k, (given, lines, place) in enumerate(sections):
        left_out = reach(given["tokens"], place, [it[2] for it in sections[k + 1:k + 2]])
        lines += [f"tokens behind the beginning of the next section, which are left out: {len(left_out)}"] * bool(left_out)
        mends += [f"section {k}: {line}" for line in lines]
        cut.append((given | {"tokens": [t for t in given["tokens"] if t not in left_out]}, place))
    return joined(cut) | {"file": file}, mends


# ---- what is found

def found(text):
    text, mends = opened(text)
    value = json_value(text)
    if not isinstance(value, dict):
        raise Fault("JSON parsing error: the value is not an object")
    given, lines = (plain_map if value.get("sections") is None else indexed_map)(value)
    tokens = sorted(given["tokens"], key=lambda t: t[:2])
    lines += ["the tokens are not in order, and are sorted"] * (tokens != given["tokens"])
    return given | {"tokens": tokens}, mends + lines


def answer(text):
    try:
        given, lines = found(text)
        tokens = [(line, column, source, src_line, src_col, name) for line, column, src_line, src_col, source, name in given["tokens"]]
        return "\n".join([peer.to_text(given, tokens), *lines])
    except Fault as fault:
        return f"error: {fault}"


if __name__ == "__main__":
    for line in sys.stdin:
        print(json.dumps(answer(json.loads(line))))
