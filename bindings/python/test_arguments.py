"""Tests of what calls refuse. `.ci/bindings` runs them."""
import unittest

from samples import COMPONENTS, SOURCES, url
from urlpattern import URLPattern, URLPatternError, URLPatternList


class Arguments(unittest.TestCase):
    def refuses(self, error, words, call, *arguments):
        with self.assertRaises(error) as refused:
            call(*arguments)
        self.assertIn(words, str(refused.exception))

    WRONG = ((None, "NoneType"), (b"https://example.com/users/7", "bytes"), (7, "int"))

    def test_what_is_no_url(self):
        pattern, routes, none = URLPattern(SOURCES[0]), URLPatternList(SOURCES), URLPatternList()
        calls = [pattern.test, pattern.mismatch, pattern.exec, pattern.captures, pattern.match]
        calls += [routes.first, routes.first_captures, none.first]
        for call in (routes.test, routes.mismatch, routes.exec, routes.captures):
            calls.append(lambda *texts, call=call: call(0, *texts))
        for call in calls:
            call(url(0), None)
            for wrong, name in self.WRONG:
                self.refuses(TypeError, f"a URL is a str, not {name}", call, wrong)
                self.refuses(TypeError, f"a URL is a str, not {name}", call, wrong, url(0))
                if wrong is not None:
                    self.refuses(TypeError, f"a base URL is a str, not {name}", call, "/", wrong)

    def test_what_is_no_pattern(self):
        pattern, routes = URLPattern(SOURCES[0]), URLPatternList(SOURCES)
        for wrong, name in self.WRONG:
            for call in (URLPattern, routes.append, lambda it: URLPatternList([it])):
                self.refuses(TypeError, f"a pattern is a str or a dict, not {name}", call, wrong)
            for key in (*COMPONENTS, "baseURL"):
                words = f"{key!r} of a pattern is a str, not {name}"
                if (key, name) != ("port", "int"):
                    self.refuses(TypeError, words, URLPattern, {"pathname": "/", key: wrong})
            for call in (pattern.covers, pattern.counterexample, pattern.overlaps):
                self.refuses(TypeError, f"not {name}", call, wrong)
            if wrong is not None:
                words = f"a base URL is a str, not {name}"
                self.refuses(TypeError, words, URLPattern, "/", wrong)
                self.refuses(TypeError, words, routes.append, "/", wrong)
        for one in (SOURCES[0], {"pathname": "/"}):
            self.refuses(TypeError, f"not a {type(one).__name__}", URLPatternList, one)
        self.assertEqual(len(routes), len(SOURCES))
        self.refuses(TypeError, "as it was made", URLPattern, pattern, SOURCES[0])

    def test_a_port_is_a_number_or_a_text(self):
        self.assertEqual(URLPattern({"port": 8080}), URLPattern({"port": "8080"}))
        self.assertTrue(URLPattern({"port": 8080}).test("http://example.com:8080/"))
        words = "'port' of a pattern is a str, not bool"
        self.refuses(TypeError, words, URLPattern, {"port": True})
        for port in (-1, 1 << 16):
            self.refuses(URLPatternError, "port", URLPattern, {"port": port})

    def test_what_is_no_component_or_group(self):
        pattern, routes = URLPattern(SOURCES[0]), URLPatternList(SOURCES)
        for wrong, name in self.WRONG:
            words = f"a component is a str, not {name}"
            self.refuses(TypeError, words, routes.component, 0, wrong)
            self.refuses(TypeError, words, pattern.generate, wrong)
            self.refuses(TypeError, words, pattern.link, [(wrong, "id", "7")])
            words = f"the name of a group is a str, not {name}"
            self.refuses(TypeError, words, pattern.link, [("pathname", wrong, "7")])
            if wrong is not None:
                words = f"the text of a group is a str, not {name}"
                self.refuses(TypeError, words, pattern.link, [("pathname", "id", wrong)])
        words = "no component 'path': it may be protocol"
        self.refuses(ValueError, words, routes.component, 0, "path")
        self.refuses(ValueError, words, pattern.link, [("path", "id", "7")])

    def test_keys_of_a_dict(self):
        nearest = {
            "path": "pathname",
            "host": "hostname",
            "base": "baseURL",
            "base_url": "baseURL",
            "hashes": "hash",
            "query": "search",
            "scheme": "protocol",
        }
        for key, meant in nearest.items():
            words = f"unknown key {key!r} of a pattern: did you mean {meant!r}?"
            self.refuses(TypeError, words, URLPattern, {"pathname": "/", key: "x"})
        for key in ("xyz", 7, None):
            words = f"unknown key {key!r} of a pattern: it may be protocol, username"
            self.refuses(TypeError, words, URLPattern, {key: "x"})

    def test_what_is_no_dict_to_match(self):
        pattern, routes = URLPattern(SOURCES[0]), URLPatternList(SOURCES)
        for call in (pattern.test, pattern.match, pattern.exec, pattern.captures, routes.first):
            self.refuses(TypeError, "did you mean 'pathname'?", call, {"path": "/users/7"})
            self.refuses(TypeError, "the base URL of a dict is its `baseURL`", call, {}, url(0))
            self.refuses(TypeError, "'hash' of a pattern is a str, not int", call, {"hash": 7})
            with self.assertRaises(TypeError):
                call({}, path="/users/7")
        self.refuses(TypeError, "a URL is a str, not dict", pattern.mismatch, {"pathname": "/"})

    def test_indices(self):
        routes, end = URLPatternList(SOURCES), len(SOURCES)
        asks = (
            lambda index: routes.test(index, url(0)),
            lambda index: routes.mismatch(index, url(0)),
            lambda index: routes.exec(index, url(0)),
            lambda index: routes.captures(index, url(0)),
            lambda index: routes.link(index, []),
            lambda index: routes.generate(index, "hash", []),
            lambda index: routes.component(index, "hash"),
            lambda index: routes.has_regexp_groups(index),
            lambda index: routes.has_meaning(index),
            lambda index: routes.covers(index, 0),
            lambda index: routes.covers(0, index),
            lambda index: routes.overlaps(index, 0),
            lambda index: routes.counterexample(0, index),
            lambda index: routes.is_same(index, 0),
            lambda index: routes.is_same(0, index),
            lambda index: routes.text(index),
            lambda index: routes.test(index, {"pathname": "/"}),
            lambda index: routes.exec(index, {"pathname": "/"}),
        )
        for ask in asks:
            for index in (-1, end, 1 << 64, -1 << 64):
                self.refuses(IndexError, "no such pattern", ask, index)
            for index in (None, "0", 0.5):
                self.refuses(TypeError, "cannot be interpreted as an integer", ask, index)
        for index in (end, -end - 1, 1 << 64):
            self.refuses(IndexError, "out of range", routes.__getitem__, index)


if __name__ == "__main__":
    unittest.main()
