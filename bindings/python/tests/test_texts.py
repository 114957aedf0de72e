"""Texts written, and calls over texts alone. Rows are those of tests/urls.rs and tests/visualizer.rs."""

import base64
import json
import random
import unittest
from array import array

from support import BACK, FLAT, MAP, TEXT, Case, mapping_urls, peer, read

from oxc_sourcemap import Code, Language, SourceMap, Token, decode_data_url, encode_mappings, source_mapping_url


class Written(Case):
    def test_json(self):
        with read() as map:
            self.assertEqual(map.to_json(), TEXT)
            self.assertEqual(map.to_data_url(), peer.to_url(TEXT))
            self.assertEqual(map.get_mappings(), "AAAA,GAASA,K;CCCTC")

    def test_mappings(self):
        chosen = random.Random(7)
        numbers = [0, 1, 15, 16, 4294967294]
        for _ in range(40):
            rows = sorted((chosen.choice(numbers[:4]), *(chosen.choice(numbers) for _ in range(5))) for _ in range(20))
            tokens = [Token(*row) for row in rows]
            wanted = peer.encode([(line, col, source, src_line, src_col, name) for line, col, src_line, src_col, source, name in tokens])
            self.assertEqual(encode_mappings(tokens), wanted)
            self.assertEqual(encode_mappings(array("I", [number for row in rows for number in row])), wanted)
        self.assertEqual((encode_mappings([]), encode_mappings(FLAT)), ("", MAP["mappings"]))

    def test_limit(self):
        deep = '{"version":3,"sections":[{"offset":{"line":4294967295,"column":0},"map":{"version":3,"sources":["a"],"mappings":"AAAA"}}]}'
        with read() as map:
            size = len(TEXT.encode())
            for call, most in ((map.to_json, size), (map.to_data_url, 43 + (size + 2) // 3 * 4), (map.get_mappings, 18)):
                self.assertEqual([call(limit=most), call(limit=2**80)], [call(), call()])
                self.fails(Code.TOO_LARGE, call, limit=most - 1)
                self.assertRaises(OverflowError, call, limit=-1)
                self.assertRaises(TypeError, call, limit=1.5)
        with SourceMap.from_json(deep) as map:
            for call in (map.to_json, map.to_data_url, map.get_mappings):
                self.fails(Code.TOO_LARGE, call, limit=4294967294)
        self.assertEqual(encode_mappings([Token(2, 0, 5, 3, 0, None)], limit=6), ";;AAKG")
        self.fails(Code.TOO_LARGE, encode_mappings, [Token(2, 0, 5, 3, 0, None)], limit=5)
        self.fails(Code.LINE_ORDER, encode_mappings, BACK, limit=0, detail=1)

    def test_line_order(self):
        self.fails(Code.LINE_ORDER, encode_mappings, BACK, detail=1)
        with SourceMap.from_tokens(BACK) as map:
            for call in (map.to_json, map.to_data_url, map.get_mappings):
                self.fails(Code.LINE_ORDER, call, detail=1)
            self.fails(Code.LINE_ORDER, map.visualizer_url, "", detail=1)


class Visual(Case):
    def test_text(self):
        tokens = [Token(0, 0, 0, 0, 0, None), Token(1, 1, 1, 0, 0, None)]
        with SourceMap.from_tokens(tokens, sources=["a.js"], source_contents=["ab\ncd"]) as map:
            wanted = '- a.js\n(0:0) "ab\\n" --> (0:0) "ab\\n"\n(1:0) "cd" --> (1:1) "d"\n'
            self.assertEqual((map.visualize("ab\ncd"), map.visualize(b"ab\ncd")), (wanted, wanted))
            self.fails(Code.NOT_UTF8, map.visualize, b"a\xff", detail=1)
            self.fails(Code.NOT_UTF8, map.visualizer_url, b"a\xff", detail=1)
        with SourceMap.from_tokens([], sources=["a.js"]) as map:
            self.assertEqual(map.visualize("x"), "[no source contents]\n")

    def test_link(self):
        with read() as map:
            head, _, data = map.visualizer_url("é").partition("#")
            text = TEXT.encode()
            self.assertEqual(head, "https://evanw.github.io/source-map-visualization/")
            self.assertEqual(base64.b64decode(data), b"2\0" + "é".encode() + b"%d\0" % len(text) + text)


class Urls(Case):
    def test_codes(self):
        for code, javascript, css in (
            ("", None, None),
            ("x\n//# sourceMappingURL=a.map", "a.map", None),
            ("x /*# sourceMappingURL=a.map */", "a.map", "a.map"),
            ("//# sourceMappingURL=a.map\n//# sourceMappingURL=b.map", "b.map", None),
            ("//# sourceMappingURL=", "", None),
            ("//# sourceMappingURL=é😀", "é😀", None),
            ("// /*# sourceMappingURL=a.map */", None, "a.map"),
        ):
            self.assertEqual((source_mapping_url(code), source_mapping_url(code.encode(), Language.CSS)), (javascript, css))
        for code in mapping_urls.random_codes(300):
            for language, rules in ((Language.JAVASCRIPT, mapping_urls.JAVASCRIPT), (Language.CSS, mapping_urls.CSS)):
                self.assertEqual(source_mapping_url(code, language), mapping_urls.mapping_url(code, rules), code)
        self.fails(Code.BAD_OPTION, source_mapping_url, "", 2)
        self.fails(Code.NOT_UTF8, source_mapping_url, b"abc\xff", detail=3)
        self.assertRaises(OverflowError, source_mapping_url, "", -1)

    def test_data_urls(self):
        for url, text in (
            ("", None),
            ("data:text/plain,{}", None),
            ("data:application/json,", ""),
            ("DATA:Application/JSON;charset=UTF-8,{}", "{}"),
            ("data:application/json,%c3%a9é", "éé"),
            (b"data:application/json;base64,e30=", "{}"),
        ):
            self.assertEqual(decode_data_url(url), text)
        self.fails(Code.BAD_BASE64, decode_data_url, "data:application/json;base64,e3*0", detail=2)
        error = self.fails(Code.BAD_DATA_UTF8, decode_data_url, "data:application/json,ab%c3", detail=2)
        self.assertEqual(str(error), "The data URL has bad UTF-8 at byte 2 of its text")
        self.fails(Code.NOT_UTF8, decode_data_url, b"a\xff", detail=1)
        with read() as map:
            self.assertEqual(json.loads(decode_data_url(map.to_data_url())), MAP)


if __name__ == "__main__":
    unittest.main()
