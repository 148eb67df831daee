"""Tests of what calls return, beside the rows, and the sessions of docs/PYTHON.md. `.ci/bindings`
runs them."""
import copy
import pickle
import unittest

from samples import REPR, SOURCES, TEXTS, groups, url
from urlpattern import Match, URLPattern, URLPatternError, URLPatternList, _library


class Answers(unittest.TestCase):
    def test_a_first_match_is_true(self):
        routes = URLPatternList(SOURCES)
        self.assertTrue(routes.first(url(0)))
        self.assertEqual([routes.first(url(n)).index for n in range(3)], [0, 1, 2])
        index, found = routes.first_captures(url(1))
        self.assertEqual((index, found), (1, groups(1)))
        for missed in ("https://example.org/", "no URL"):
            self.assertIs(routes.first(missed), None)
            self.assertIs(URLPatternList().first(missed), None)

    def test_a_dict_is_matched(self):
        pattern, routes = URLPattern(SOURCES[0]), URLPatternList(SOURCES)
        given = {"pathname": "users/7", "baseURL": "https://example.com/x"}
        self.assertTrue(pattern.test(given))
        self.assertEqual(pattern.match(given), pattern.match(url(0).replace("/0", "/7")))
        self.assertEqual(pattern.exec(given)["pathname"]["input"], "/users/7")
        self.assertEqual(routes.first({**given, "pathname": "/posts/8"}).index, 1)
        self.assertTrue(URLPattern({"port": 8080}).test({"protocol": "http", "port": 8080}))
        for missed in ({}, {"pathname": "/users/7"}, {"protocol": "no URL"}, {"baseURL": "x"}):
            self.assertFalse(pattern.test(missed))
            self.assertIs(pattern.match(missed), None)
            self.assertIs(pattern.exec(missed), None)
            self.assertIs(routes.first(missed), None)

    def test_the_same_patterns(self):
        texts = {name: text for name, text in TEXTS.items() if text != "*"}
        same = [URLPattern(SOURCES[0]), URLPattern("/users/:id", "https://example.com")]
        same += [URLPattern(texts), URLPatternList(SOURCES)[0], URLPattern(same[0].text)]
        other = [URLPattern(SOURCES[0], ignore_case=True), URLPattern({"pathname": "/users/:id"})]
        other += [URLPattern("https://example.com/users/:it"), URLPatternList(SOURCES)[1]]
        for one in same:
            self.assertEqual((len({*same, one}), one, hash(one)), (1, same[0], hash(same[0])))
            self.assertTrue(all(one != it for it in other))
        self.assertNotEqual(same[0], SOURCES[0])
        routes = URLPatternList([*SOURCES, SOURCES[0]])
        self.assertEqual((routes[0] == routes[3], routes[0] == routes[1]), (True, False))
        self.assertEqual((routes.is_same(0, 3), routes.is_same(1, 0)), (True, False))

    def test_two_patterns(self):
        users, all_of_it = URLPattern(SOURCES[0]), URLPattern(SOURCES[2])
        self.assertEqual((users.covers(all_of_it), all_of_it.covers(users)), (False, True))
        texts = users.counterexample(all_of_it)
        self.assertEqual((texts["protocol"], texts["hostname"]), ("https", "example.com"))
        self.assertFalse(users.test({**texts, "baseURL": SOURCES[2]}))
        self.assertIs(all_of_it.counterexample(users), None)
        bounded = URLPattern(r"https://example.com/:x(\bx)")
        self.assertIs(bounded.counterexample(users), None)
        self.assertEqual((users.overlaps(all_of_it), bounded.overlaps(users)), (True, None))
        routes = URLPatternList(SOURCES)
        self.assertEqual([routes.overlaps(0, at) for at in range(3)], [True, False, True])
        self.assertEqual(routes.counterexample(0, 2), texts)

    def test_what_is_reached(self):
        every, one = "https://example.com/*", "https://example.com/a"
        texts, covered = URLPatternList([every, one]).reach_of_each()
        fixed = {"protocol": "https", "hostname": "example.com", "port": ""}
        self.assertEqual((covered, {**texts, **fixed}), ([0], texts))
        self.assertTrue(URLPattern(every).test(texts))
        first, second = URLPatternList([one, every]).reach_of_each()
        self.assertEqual((first["pathname"], URLPattern(one).test(second)), ("/a", False))
        self.assertTrue(URLPattern(every).test(second))
        self.assertEqual(URLPatternList().reach_of_each(), [])

    def test_one_text(self):
        self.assertEqual(str(URLPattern("/users/:id", "https://example.com")), SOURCES[0])
        self.assertEqual([str(route) for route in URLPatternList(SOURCES)], SOURCES)
        none = URLPattern({"pathname": "a*"})
        self.assertEqual((none.text, str(none)), (None, repr(none)))

    def test_the_groups_of_a_match(self):
        pattern = URLPattern("https://:id.example.com/:id/:page?/*")
        match = pattern.match("https://a.example.com/b/")
        self.assertEqual(match.hostname, {"id": "a"})
        self.assertEqual(match.pathname, {"id": "b", "page": None, "0": ""})
        self.assertEqual((match.protocol, match.search), ({}, {"0": ""}))
        self.assertEqual(match["page"], None)
        self.assertEqual(match.groups, pattern.captures("https://a.example.com/b/"))
        for call in (lambda: [*match], lambda: "page" in match):
            self.assertRaisesRegex(TypeError, "itera", call)
        for call in (match.groupdict, lambda: match["id"], lambda: match.group("0")):
            self.assertRaisesRegex(IndexError, "ask one, as `match.\\w+\\['(id|0)'\\]`", call)
        self.assertRaisesRegex(IndexError, "no such group: 'none'", match.group, "none")
        match = URLPattern("https://example.com/:a/:b?").match("https://example.com/1")
        self.assertEqual(match.groupdict(), {"a": "1", "b": None})
        self.assertEqual(match.groupdict(""), {"a": "1", "b": ""})
        self.assertEqual(match, Match(0, match.groups))

    def test_a_list_is_a_sequence(self):
        routes = URLPatternList(SOURCES)
        patterns = [URLPattern(source) for source in SOURCES]
        self.assertEqual([*routes], patterns)
        self.assertEqual([*reversed(routes)], patterns[::-1])
        self.assertEqual((routes[-1], routes[1:]), (patterns[-1], patterns[1:]))
        self.assertEqual((routes.index(patterns[1]), routes.count(patterns[2])), (1, 1))
        self.assertIn(patterns[0], routes)
        self.assertNotIn(URLPattern(SOURCES[0], ignore_case=True), routes)
        self.assertEqual(set(URLPatternList(routes)), set(patterns))
        self.assertEqual(repr(routes[:1]), f"[{REPR}]")
        self.assertEqual(eval(repr(routes))[0].pathname, "/users/:id")
        self.assertTrue(routes[2].covers(routes[0]) and routes[2].covers(patterns[0]))
        self.assertEqual(routes[1].link([("pathname", "id", "7")]), "https://example.com/posts/7")
        self.assertEqual(routes[2].pathname, "/*")

    def test_a_place_is_one_of_characters(self):
        """Each text has characters of one to four bytes before its fault, which is `(`."""
        before = "aé€😀"
        place = len(before), len(before) + 1
        cases = (
            ((before + "(", "https://example.com"), place, False, None),
            ((before,), (0, len(before)), False, None),
            ((f"https://{before}/{before}(",), (8 + 4 + 1 + 4, 8 + 4 + 1 + 4 + 1), False, None),
            (({"pathname": before + "("},), place, False, "pathname"),
            (({"hostname": before, "hash": before + "("},), place, False, "hash"),
            ((before, before), (0, len(before)), True, None),
            (({"pathname": "/", "baseURL": before},), None, True, None),
        )
        for arguments, place, in_base, component in cases:
            with self.subTest(arguments), self.assertRaises(URLPatternError) as refused:
                URLPattern(*arguments)
            error = refused.exception
            self.assertEqual(error.place, place)
            self.assertEqual((error.in_base, error.component), (in_base, component))
            again = pickle.loads(pickle.dumps(error))
            self.assertEqual((str(again), again.place), (str(error), error.place))

    def test_texts_that_need_more_room(self):
        long, many = "x" * 100_000, 300
        pattern = URLPattern("https://example.com/users/:id")
        wide = URLPattern({"pathname": "".join(f"/:name{number}" for number in range(many))})
        for _ in range(2):
            text = f"https://example.com/users/{long}"
            self.assertIn(("pathname", "id", long), pattern.captures(text))
            for id in (long, long + "%C3%A9", "7", "é" * 300, "x" * 990, "x" * 1000):
                match = pattern.match(f"https://example.com/users/{id}")
                self.assertEqual(match["id"], id.replace("é", "%C3%A9"))
                self.assertEqual(match.groups[2], ("pathname", "id", match["id"]))
                self.assertEqual(match["id"], match.pathname["id"])
            self.assertEqual(pattern.exec(text)["pathname"]["groups"], {"id": long})
            found = wide.captures("https://example.com" + "/a" * many)
            named = [name for component, name, _ in found if component == "pathname"]
            self.assertEqual(named, [f"name{number}" for number in range(many)])
        self.assertLessEqual(max(len(it.bytes) for it in _library.FREE), _library.KEPT)

    def test_one_group_is_that_of_all(self):
        pattern = URLPattern("https://:team.example.com/:lang/:page?/*")
        for url in ("https://a.example.com/en/b/c", "https://a.example.com/en/"):
            each, match = pattern.match(url), pattern.match(url)
            texts = {name: text for _, name, text in match.groups if name != "0"}
            self.assertEqual({name: each[name] for name in texts}, texts)
            self.assertEqual({name: match[name] for name in texts}, texts)
            for name in ("0", "1", "", "Team", None, 0):
                for found in (each, match):
                    self.assertRaises(IndexError, found.group, name)
            self.assertEqual(each, match)

    def test_a_base_does_not_tie_a_url_to_its_host(self):
        pattern = URLPattern("https://example.com/*")
        self.assertTrue(pattern.test("/x", "https://example.com"))
        for left in ("//other.com/x", "\\\\other.com\\x", "https://other.com/x"):
            self.assertFalse(pattern.test(left, "https://example.com"))
            self.assertEqual(pattern.mismatch(left, "https://example.com"), "hostname")

    def test_a_path_has_the_host_of_its_base(self):
        """However slashes, dots and what a URL is read without begin the path, also of schemes that
        are not special."""
        starts = ("/", "//", "/\\", "/\t/", "/\n\\", "///", "/./", "/.//", "/..//", "/%2e//")
        starts += ("//@", "//:1", "//[::1]", "/?", "/#", "/\\\\")
        bases = ("https://u:p@a.example:8080/x/y?z#w", "http://[::1]/", "foo://a.example/x")
        bases += ("file://a.example/C:/x", "ws://a.example")
        wide = URLPattern({})
        for base in bases:
            host = {name: it["input"] for name, it in wide.exec(base).items()}
            for start in starts:
                found = wide.exec(path=f"{start}evil.example/users/9", base=base)
                for name in ("protocol", "username", "password", "hostname", "port"):
                    self.assertEqual(found[name]["input"], host[name], (base, start))
        pattern, base = URLPattern("https://example.com/users/:id"), "https://example.com"
        calls = [pattern.test, pattern.match, pattern.exec, pattern.captures]
        for call in (*calls, URLPatternList([pattern]).first):
            self.assertTrue(call(path="/users/9?q#f", base=f"{base}/x"))
            for start in ("//evil.example", "/\\evil.example", "//example.com"):
                self.assertFalse(call(path=f"{start}/users/9", base=base))
            self.assertFalse(call(path="/users/9", base="mailto:x"))
            for wrong in (f"{base}/users/9", "users/9", "", " /users/9", "\\users\\9", "?/"):
                with self.assertRaisesRegex(ValueError, "a path begins with `/`"):
                    call(path=wrong, base=base)
            for error, wrong in (
                ("a path needs a base URL and no other", {"path": "/x"}),
                ("a path needs a base URL and no other", {"path": "/x", "url": "/", "base": base}),
                ("a path is a str, not bytes", {"path": b"/", "base": base}),
                ("a base URL is a str, not bytes", {"path": "/", "base": b"/"}),
            ):
                self.assertRaisesRegex(TypeError, error, call, **wrong)
        self.assertEqual(pattern.mismatch(path="//evil.example/users/9", base=base), "pathname")

    def test_patterns_are_compared_however_they_were_given(self):
        user, wide = URLPattern(SOURCES[0]), URLPattern(SOURCES[2])
        named = URLPattern({"pathname": "/users/:name"})
        folded = URLPattern({"pathname": "/users/me"}, ignore_case=True)
        for pattern, asked, answer in (
            (wide, user, True),
            (user, wide, False),
            (named, user, True),
            (user, named, False),
            (folded, user, False),
            (folded, folded, True),
            (folded, copy.copy(folded), True),
        ):
            self.assertIs(pattern.covers(asked), answer)
            self.assertTrue(user.test(url(0)) and wide.test(url(0)) and named.test(url(0)))
        routes = URLPatternList(SOURCES)
        found = [[routes.covers(index, asked) for asked in range(3)] for index in range(3)]
        self.assertEqual(found, [[True, False, False], [False, True, False], [True, True, True]])
        for index, _ in enumerate(SOURCES):
            self.assertTrue(routes.test(index, url(index)))

    def test_a_meaning_is_one_of_each_component(self):
        cases = {
            "/:id": True,
            "/:id(\\d+)": True,
            "/(en|fr)?/*": True,
            "/:file([^/]+\\.(?:png|svg))": True,
            "/(\\bx)": False,
            "/(^x$)": False,
            "/((?i)x)": False,
            "/((?P<year>\\d+))": False,
            "/:id(\\d+)\\?q=(x$)": False,
        }
        plain, folded = URLPatternList(), URLPatternList()
        for text, answer in cases.items():
            plain.append(text, "https://example.com")
            folded.append(text, "https://example.com", ignore_case=True)
            self.assertIs(URLPattern(text, "https://example.com").has_meaning, answer)
        found = [plain.has_meaning(index) for index in range(len(plain))]
        self.assertEqual(found, list(cases.values()))
        found = [folded.has_meaning(index) for index in range(len(folded))]
        self.assertEqual(found, list(cases.values()))
        self.assertTrue(URLPattern({"protocol": "(https?)"}, ignore_case=True).has_meaning)

    def test_no_url_and_no_match(self):
        pattern = URLPattern("https://example.com/*")
        for text in ("no URL", "", "https://"):
            self.assertFalse(pattern.test(text))
            self.assertIs(pattern.exec(text), None)
            self.assertIs(pattern.captures(text), None)
            with self.assertRaisesRegex(ValueError, "not a URL"):
                pattern.mismatch(text)


if __name__ == "__main__":
    unittest.main()
