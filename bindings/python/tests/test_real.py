"""A map file, which OXC_SOURCEMAP_MAP names, read and written."""

import json
import os
import unittest

from support import read

from oxc_sourcemap import SourceMap


@unittest.skipUnless("OXC_SOURCEMAP_MAP" in os.environ, "OXC_SOURCEMAP_MAP names no map")
class Real(unittest.TestCase):
    def test_map_file(self):
        with open(os.environ["OXC_SOURCEMAP_MAP"], "rb") as file:
            text = file.read()
        said = json.loads(text)
        maps = [said] if said.get("sections") is None else [it["map"] for it in said["sections"]]
        sources = [it for map in maps for it in map["sources"]]
        names = [it for map in maps for it in map.get("names", [])]
        with read(text) as map:
            self.assertEqual((map.sources, map.names), (sources, names))
            with read(map.to_json()) as again:
                self.assertEqual(again.to_json(), map.to_json())
                self.assertEqual(again.token_array(), map.token_array())
                self.assertIsNone(map.first_difference(again))
            with SourceMap.from_tokens(map.token_array(), names=names, sources=sources, source_contents=map.source_contents) as made:
                self.assertEqual(made.get_mappings(), map.get_mappings())


if __name__ == "__main__":
    unittest.main()
