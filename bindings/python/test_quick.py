"""Tests of the calls of _quick.c, which answer as those by ctypes. `.ci/bindings` runs them."""
import datetime
import gc
import sys
import tracemalloc
import unittest

import urlpattern
from samples import SOURCES, groups, imported_as, url
from urlpattern import _library
from urlpattern._library import quick

USERS = "https://example.com/users/"


class Text(str):
    """A text that is no plain str."""


def by_ctypes():
    """The package where the extension was not built."""
    sys.modules["by_ctypes._quick"] = None
    return imported_as("by_ctypes")


def asked(module):
    """What is called with a text and a base, or a path."""
    pattern, routes = module.URLPattern(f"{USERS}:id"), module.URLPatternList(SOURCES)
    router = module.URLPatternRouter()
    router.insert("GET", {"pathname": "/users/:id"}, "profile")
    router.insert(None, {"pathname": "/*"}, "other")
    at_path = lambda path, base: router.at("GET" if base is None else base, path)
    policy = module.URLPolicy()
    policy.allow(f"{USERS}:id")
    calls = [pattern.test, pattern.match, routes[1].test, routes[1].match, routes.first]
    return [*calls, module.URLPatternList().first, at_path, policy.allows, module.URLPolicy().allows]


def answer(call, *texts):
    """What a call returns, or the error that it raises."""
    try:
        found = call(*texts)
    except Exception as error:
        return type(error).__name__, str(error)
    return bool(found), repr(found)


@unittest.skipUnless(quick.bind, "the extension is not there")
class Quick(unittest.TestCase):
    ENDS = ("7", "é", "😀", "\ud800", "", "a\0b", "x" * 600, "é" * 1500, "x" * 4070, "x" * 4097)
    STARTS = (USERS, "/users/", "https://example.com/posts/", "https://example.org/", "", "\ud800")
    LEFT = (None, USERS.encode(), 7, {}, Text(f"{USERS}7"), f"{USERS}\ud800", USERS + "x" * 1_000_000)

    def test_both_ways_have_the_same_answers(self):
        texts = [start + end for start in self.STARTS for end in self.ENDS] + [*self.LEFT]
        bases = (None, "https://example.com", "", Text("https://example.com"), "\ud800", b"x", "GET")
        for one, other in zip(asked(urlpattern), asked(by_ctypes())):
            for text in texts:
                for base in bases:
                    with self.subTest(call=one, text=repr(text)[:40], base=repr(base)):
                        self.assertEqual(answer(one, text, base), answer(other, text, base))

    def test_what_is_left_to_ctypes(self):
        bound = urlpattern.URLPattern(f"{USERS}:id")._bound
        for call in (quick.test, quick.captures, quick.first):
            self.assertTrue(call(bound, 0, f"{USERS}7", ""))
            self.assertTrue(call(bound, 0, "/users/7", USERS))
            self.assertIs(call(bound, 0, "https://example.com/", ""), False)
            self.assertIs(call(bound, 0, "no URL", ""), False)
            for text in (*self.LEFT, USERS + "x" * 4096):
                self.assertIsNone(call(bound, 0, text, ""))
                self.assertIsNone(call(bound, 0, "/users/7", text))
        self.assertIsNone(quick.captures(bound, 0, USERS + "é" * 1000, ""))
        self.assertIsNone(quick.test(bound, 1, f"{USERS}7", ""))
        self.assertIsNone(quick.first(urlpattern.URLPatternList()._bound, 0, f"{USERS}7", ""))
        router = urlpattern.URLPatternRouter()
        router.insert("GET", {"pathname": "/users/:id"}, 0)
        self.assertTrue(quick.first(router._bound, 0, "GET", "/users/7"))
        self.assertIs(quick.first(router._bound, 0, "GET", "/"), False)
        for method, path in (("PUT", "/users/7"), ("GET", "no path"), ("GET", ""), (None, "/")):
            self.assertIsNone(quick.first(router._bound, 0, method, path))
        for call in (quick.test, quick.captures, quick.allows):
            self.assertIsNone(call(router._bound, 0, f"{USERS}7", ""))
        self.assertIsNone(quick.allows(bound, 0, f"{USERS}7", ""))
        for text in self.LEFT:
            self.assertIsNone(quick.allows(urlpattern.URLPolicy()._bound, 0, text, ""))

    def test_a_policy_of_a_subclass_decides_itself(self):
        class Denied(urlpattern.URLPolicy):
            def decide(self, url, base=None):
                return urlpattern.Decision()

        for kind in (urlpattern.URLPolicy, Denied):
            policy = kind(default_allows=True)
            self.assertIs(policy.allows(f"{USERS}7"), kind is urlpattern.URLPolicy)

    def test_wrong_arguments_are_errors(self):
        bound, wrong = urlpattern.URLPattern(f"{USERS}:id")._bound, (None, "x", b"", [], quick, 0.5)
        for call in (quick.test, quick.captures, quick.first, quick.allows):
            for count in (0, 1, 2, 3, 5, 9):
                self.assertRaises(TypeError, call, *[bound] * count)
            for it in (*wrong, 0, datetime.datetime_CAPI):
                self.assertRaises(ValueError, call, it, 0, f"{USERS}7", "")
            for it in (*wrong, bound):
                self.assertRaises(TypeError, call, bound, it, f"{USERS}7", "")
            for it in (-1, 1 << 64, -1 << 64):
                self.assertRaises(OverflowError, call, bound, it, f"{USERS}7", "")
            self.assertRaises(TypeError, call, bound, 0, f"{USERS}7", base="")
        for it in ((), (None, 1, 1, 1, 1), (None, "1", 1, 1, 1, 1), (None, 1, 1, 1, 1, 1, 1)):
            self.assertRaises(TypeError, quick.bind, *it)
        self.assertRaises(OverflowError, quick.bind, None, 1 << 64, 1, 1, 1, 1)

    def test_a_handle_lives_as_long_as_what_is_bound_to_it(self):
        pattern = urlpattern.URLPattern(SOURCES[0])
        bound, match = pattern._bound, pattern.match(url(0))
        del pattern
        gc.collect()
        self.assertIs(quick.test(bound, 0, url(0), ""), True)
        self.assertEqual(match.groups, groups(0))

    def test_a_result_is_of_its_own(self):
        pattern = urlpattern.URLPattern(f"{USERS}:id")
        texts = ["7", "x" * 4000, "8"]
        found = [pattern.match(USERS + text) for text in texts]
        self.assertEqual([match["id"] for match in found], texts)
        start, end = _library.SIZES.size + 5 * _library.SPAN.size, _library.start_of_text(5)
        for match, text in zip(found, texts):
            self.assertEqual((match._data[end:], any(match._data[start:end])), (text.encode(), False))

    def test_no_memory_is_kept(self):
        def work(count):
            for _ in range(count):
                for call in asked(urlpattern):
                    for text in (f"{USERS}7", "/users/7", "no URL", f"{USERS}\ud800", "x" * 5000):
                        answer(call, text, None)
            gc.collect()
            return tracemalloc.get_traced_memory()[0]

        tracemalloc.start()
        try:
            before = work(20)
            self.assertLess(work(200) - before, 20_000)
        finally:
            tracemalloc.stop()


if __name__ == "__main__":
    unittest.main()
