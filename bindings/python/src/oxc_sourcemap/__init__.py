"""Source maps of version 3 (ECMA-426), by the proved library oxc_sourcemap.

>>> from oxc_sourcemap import SourceMap
>>> with SourceMap.from_json('{"version":3,"sources":["a.ts"],"names":["f"],"mappings":"AAEA,IAAIA"}') as map:
...     found = map.trace(0, 5)
...     print(found.source, found.line, found.column, found.name)
a.ts 2 4 f
"""

from ._compiled import CompiledMap
from ._errors import SourceMapError
from ._library import NO_ID
from ._making import SourceMapBuilder, SourceMapJoin
from ._map import SourceMap
from ._scopes import Scopes
from ._texts import decode_data_url, encode_mappings, source_mapping_url
from ._values import (
    Bias,
    Call,
    Code,
    CompiledCounts,
    Counts,
    Direction,
    FaultPlace,
    Field,
    Found,
    FrameView,
    Frames,
    Generated,
    Kind,
    Language,
    Mend,
    MendKind,
    Original,
    Piece,
    PlaceKind,
    Position,
    Range,
    Scope,
    ScopeChainEntry,
    ScopeFrame,
    ScopeVariable,
    ScopeView,
    ScopesCounts,
    ScopesFault,
    SourceFrame,
    Token,
)

__all__ = [
    "NO_ID",
    "Bias",
    "Call",
    "Code",
    "CompiledCounts",
    "CompiledMap",
    "Counts",
    "Direction",
    "FaultPlace",
    "Field",
    "Found",
    "FrameView",
    "Frames",
    "Generated",
    "Kind",
    "Language",
    "Mend",
    "MendKind",
    "Original",
    "Piece",
    "PlaceKind",
    "Position",
    "Range",
    "Scope",
    "ScopeChainEntry",
    "ScopeFrame",
    "ScopeVariable",
    "ScopeView",
    "Scopes",
    "ScopesCounts",
    "ScopesFault",
    "SourceFrame",
    "SourceMap",
    "SourceMapBuilder",
    "SourceMapError",
    "SourceMapJoin",
    "Token",
    "decode_data_url",
    "encode_mappings",
    "source_mapping_url",
]

__version__ = "2.0.0"
