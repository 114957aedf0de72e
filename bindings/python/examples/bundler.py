"""Puts JavaScript modules one behind the other, and makes the map of the whole.

    bundler.py OUT MODULE..

Each MODULE names its map in a comment `sourceMappingURL` at its end, as a file beside it or as a data URL. The maps are joined, each at
the line where its module begins. A source of theirs that has a map itself, SOURCE.map in the folder of the first module, is led back
through that. The code is written to OUT, and the map to OUT.map.
"""

from __future__ import annotations

import sys
from pathlib import Path

sys.path.append(str(Path(__file__).resolve().parents[1] / "src"))

from oxc_sourcemap import SourceMap, SourceMapError, SourceMapJoin, decode_data_url, source_mapping_url


def map_of(module: Path, url: str) -> SourceMap:
    """The map that this URL, of a module, stands for."""
    text = decode_data_url(url)
    return SourceMap.read_found(module.with_name(url).read_bytes() if text is None else text).map


def add_module(join: SourceMapJoin, module: Path, line: int) -> str:
    """Adds the map of a module whose code begins at this line, and returns the code, as whole lines, without the comment that names
    the map."""
    code = module.read_text(encoding="utf-8")
    url = source_mapping_url(code)
    if url is not None:
        with map_of(module, url) as map:
            map.apply_source_root()  # joins drop it
            join.add(map, line)
        front = code[: code.rindex(f"sourceMappingURL={url}")]
        code = front[: max(front.rfind("//"), front.rfind("/*"))]
    return code if code.endswith("\n") or not code else f"{code}\n"


def remapped(map: SourceMap, folder: Path) -> SourceMap:
    """A map, led back through those of its sources that have one."""
    paths = [(source, folder / f"{source}.map") for source in map.sources]
    return map.remap({source: SourceMap.read_found(path.read_bytes()).map for source, path in paths if path.is_file()})


def bundle(out: Path, modules: list[Path]) -> None:
    code, lines = [], 0
    with SourceMapJoin() as join:
        for module in modules:
            code.append(add_module(join, module, lines))
            lines += code[-1].count("\n")
        with join.finish() as joined, remapped(joined, modules[0].parent) as map:
            map.set_file(out.name)
            out.write_text("".join(code) + f"//# sourceMappingURL={out.name}.map\n", encoding="utf-8")
            out.with_name(f"{out.name}.map").write_text(map.to_json(), encoding="utf-8")


def main() -> None:
    try:
        bundle(Path(sys.argv[1]), [Path(it) for it in sys.argv[2:]])
    except SourceMapError as error:
        sys.exit(f"{error.name}: {error} {error.place.message if error.place else ''}")
    except OSError as error:
        sys.exit(str(error))


if __name__ == "__main__":
    main()
