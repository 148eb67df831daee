"""Tests of copies. `.ci/bindings` runs them."""
import copy
import gc
import pickle
import unittest

from samples import SOURCES, url
from urlpattern import URLPattern, URLPatternList


class Named(URLPattern):
    def __init__(self, name):
        super().__init__(f"https://example.com/{name}/*")
        self.name = name


class Allowed(URLPatternList):
    def __init__(self, users):
        super().__init__(["https://example.com/*"])
        self.users = users


def pickled(protocol):
    return lambda it: pickle.loads(pickle.dumps(it, protocol))


class Copies(unittest.TestCase):
    PROTOCOLS = range(pickle.HIGHEST_PROTOCOL + 1)
    WAYS = copy.copy, copy.deepcopy, *map(pickled, PROTOCOLS)

    def test_a_list_outlives_its_copies(self):
        for way in self.WAYS:
            denied = URLPatternList()
            denied.append("/admin/*", "https://example.com", ignore_case=True)
            denied.append({"hostname": "*.example.com"})
            made = way(denied)
            self.assertEqual(len(made), 2)
            self.assertTrue(made.test(0, "https://example.com/ADMIN/users"))
            self.assertTrue(made.test(1, "http://a.example.com/"))
            made.append("https://example.com/more")
            self.assertEqual((len(made), len(denied)), (3, 2))
            del made
            gc.collect()
            self.assertTrue(denied.test(0, "https://example.com/ADMIN/users"))
            self.assertEqual(way(denied[1]), denied[1])
            match = denied.first("http://a.example.com/")
            self.assertEqual((way(match), match.index), (match, 1))

    def test_a_copy_outlives_its_list(self):
        for way in self.WAYS:
            pattern, routes = URLPattern(SOURCES[0]), URLPatternList(SOURCES)
            made, last = (way(pattern), way(routes)), routes[-1]
            del pattern, routes
            gc.collect()
            self.assertTrue(made[0].test(url(0)))
            self.assertEqual(made[1].first(url(1)).index, 1)
            self.assertTrue(last.test(url(2)))

    def test_a_subclass_keeps_its_attributes(self):
        for way in self.WAYS:
            named, allowed = Named("users"), Allowed(["a"])
            self.assertEqual((type(way(named)), way(named).name), (Named, "users"))
            self.assertEqual((type(way(allowed)), way(allowed).users), (Allowed, ["a"]))
            self.assertTrue(way(named).test(url(0)) and way(allowed).test(0, url(0)))


if __name__ == "__main__":
    unittest.main()
