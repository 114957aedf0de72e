#!/usr/bin/env python3
"""The URL that a code names for its map, and the JSON text in a data URL, for tests/urls.rs: rows by hand first, then the checksums of
random codes and random URLs.

ECMA-426's extraction without parsing is a regular expression over each line (its note, here with `[^/]` for the code, so that each
character is taken by itself), and a loop in which code forgets the URL. Beside that a comment with a quote, a backtick or `*/` in it
forgets the URL, as does one that its line does not end. White space is that of Unicode (U+0085, and not U+FEFF)."""
import base64
import binascii
import re
from urllib.parse import unquote_to_bytes

SPACE = "[\\t\\n\\x0b\\x0c\\r \\x85\\xa0\\u1680\\u2000-\\u200a\\u2028\\u2029\\u202f\\u205f\\u3000]"
TEXT = f"(?:(?!{SPACE}).)"
NAMED = re.compile(f"[#@]{SPACE}*sourceMappingURL=({TEXT}*){SPACE}*", re.S)
JAVASCRIPT = re.compile(f"{SPACE}+|//(?P<single>.*)|/\\*(?P<multi>.*?)\\*/|/\\*(?P<open>.*)|(?P<code>.)", re.S)
CSS = re.compile(f"{SPACE}+|(?P<single>(?!))|/\\*(?P<multi>.*?)\\*/|/\\*(?P<open>.*)|(?P<code>.)", re.S)
LINES = re.compile("[^\n\r\u2028\u2029]*(?:\r\n|[\n\r\u2028\u2029]|$)")


def mapping_url(code, language):
    known = None
    for line in LINES.findall(code):
        for found in language.finditer(line):
            comment = found["single"] if found["single"] is not None else found["multi"]
            if comment is not None and not re.search("[\"'`]|\\*/", comment):
                named = NAMED.fullmatch(comment)
                known = named[1] if named else known
            elif comment is not None or found["open"] is not None or found["code"] is not None:
                known = None
    return known


def data_url_text(url):
    """A text, None, or an error and where it is."""
    scheme, colon, rest = url.partition(b":")
    head, comma, data = rest.partition(b"#")[0].partition(b",")
    json_type = head.partition(b";")[0].lower() in (b"application/json", b"text/json")
    if scheme.lower() != b"data" or not colon or not comma or not json_type:
        return None
    data = unquote_to_bytes(data)
    if head.lower().endswith(b";base64"):
        try:
            data = base64.b64decode(data + b"=" * (-len(data) % 4), validate=True)
        except binascii.Error:
            return "bad base64"
    try:
        return data.decode()
    except UnicodeDecodeError as error:
        return ("bad UTF-8", error.start)


PIECES = ["//# sourceMappingURL=a.map", "//@ sourceMappingURL=b.map", "/*# sourceMappingURL=c.map */", "/* d */", "// e", "x", "/", "*",
          "'", "\n", "\r", "\r\n", "\u2028", " ", "\u00a0", "\ufeff", "/*", "*/", "//", "#", " sourceMappingURL=", "f g", "😀", "`", '"']


def random_codes(count):
    seed = 1
    for _ in range(count):
        code = []
        for _ in range(12):
            seed = (seed * 1103515245 + 12345) % 2**31
            code.append(PIECES[(seed >> 16) % len(PIECES)])
        yield "".join(code)


def checksum(texts):
    total = named = 0
    for text in texts:
        named += text is not None
        total = (total * 31 + (7 if text is None else sum(text.encode()))) % 2**32
    return f"{named} URLs, checksum {total}"


if __name__ == "__main__":
    print("JavaScript:", checksum(mapping_url(code, JAVASCRIPT) for code in random_codes(20000)))
    print("CSS:", checksum(mapping_url(code, CSS) for code in random_codes(20000)))
