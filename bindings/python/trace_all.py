"""trace_all.py [--compiled] FILE.map: answers each line `LINE COLUMN` of standard input with two lines, what the map says of the position
and what it says clamped: `nothing`, `unmapped`, or `SOURCE:LINE:COLUMN`, then a space and the name if there is one. With
--compiled it says what the compiled map says, which then lies in a file. Ends with status 1 and a message if a call is refused or the map is
not sorted."""

import sys
import tempfile
from pathlib import Path

sys.path.append(str(Path(__file__).resolve().parent / "src"))

from oxc_sourcemap import Bias, CompiledMap, SourceMap, SourceMapError


def text_of(found):
    if found is None or found.source is None:
        return "nothing" if found is None else "unmapped"
    text = f"{found.source}:{found.line}:{found.column}"
    return text if found.name is None else f"{text} {found.name}"


def answer(map):
    for line, column in (it.split() for it in sys.stdin):
        print(text_of(map.trace(int(line), int(column))))
        print(text_of(map.trace(int(line), int(column), Bias.CLAMPED)))


sys.stdout.reconfigure(encoding="utf-8", newline="\n")
with open(sys.argv[-1], "rb") as file:
    text = file.read()
try:
    with SourceMap.from_json(text) as map:
        if not map.is_sorted():
            sys.exit("Tokens are not in order of line and column")
        if sys.argv[1] == "--compiled":
            with tempfile.NamedTemporaryFile() as file:
                file.write(map.compile())
                file.flush()
                answer(CompiledMap.open_file(file.name))
        else:
            answer(map)
except SourceMapError as error:
    sys.exit(str(error))
