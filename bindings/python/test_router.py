"""Tests of routers. `.ci/bindings` runs them."""
import copy
import os
import pathlib
import pickle
import unittest

from samples import CALLS, in_threads, wrong_answers
from urlpattern import MethodNotAllowed, RouteMatch, URLPattern, URLPatternError, URLPatternRouter

# The routes of a router, and requests.
LINES = (pathlib.Path(__file__).parents[1] / "routes.txt").read_text().splitlines()


def routes_of_lines():
    """The router of the lines. The value of a route is its method and its pathname."""
    routes = URLPatternRouter()
    for line in LINES:
        if line.startswith("route "):
            _, method, pathname = line.split()
            of = None if method == "*" else method
            routes.insert(of, {"pathname": pathname}, (method, pathname))
    return routes


def users():
    routes = URLPatternRouter()
    routes.insert("GET", {"pathname": "/users/:id"}, "profile", name="user")
    routes.insert("PUT", {"pathname": "/users/:id"}, ["change"])
    return routes


def shown(found):
    """What a router returned, as the lines have it."""
    if found is None:
        return ["404"]
    if isinstance(found, MethodNotAllowed):
        return ["405", ", ".join(found.methods)]
    id = found.pathname.get("id", "")
    return [str(found.index), *([id] if id else [])]


class Requests(unittest.TestCase):
    def test_each_request_has_its_answer(self):
        routes = routes_of_lines()
        for line in (it for it in LINES if not it.startswith("route ")):
            method, path, *answer = line.split(" ", 3)
            with self.subTest(line):
                if answer == ["400"]:
                    self.assertRaises(ValueError, routes.at, method, path)
                    continue
                self.assertEqual(shown(routes.at(method, path)), answer)
                if not path.startswith("//"):
                    url = f"https://example.com{path}"
                    self.assertEqual(shown(routes.at_url(method, url)), answer)
                    self.assertEqual(shown(routes.at_url(method, path, "https://a.b")), answer)

    def test_a_value_is_that_of_its_route(self):
        routes = routes_of_lines()
        self.assertEqual(routes.at("POST", "/users/7").value, ("POST", "/users/:id"))
        self.assertEqual(users().at("PUT", "/users/7").value, ["change"])

    def test_only_a_route_that_serves_is_true(self):
        routes = users()
        self.assertTrue(routes.at("GET", "/users/7"))
        self.assertFalse(routes.at("POST", "/users/7"))
        self.assertFalse(routes.at("GET", "/"))
        self.assertFalse(URLPatternRouter().at("GET", "/users/7"))
        self.assertIsNone(routes.at_url("GET", "no URL"))

    def test_many_methods_and_groups_have_room(self):
        routes = URLPatternRouter()
        methods = [f"METHOD-{number}" for number in range(200)]
        for method in methods:
            routes.insert(method, {"pathname": "".join(f"/:a{n}" for n in range(30))}, method)
        path = "".join(f"/{'x' * 100}{n}" for n in range(30))
        self.assertEqual(routes.at("GET", path).methods, methods)
        self.assertEqual(routes.at(methods[7], path)["a29"], "x" * 100 + "29")


class Insertions(unittest.TestCase):
    def test_a_refused_route_is_not_inserted(self):
        routes = users()
        for error, arguments in (
            (URLPatternError, ("GET", {"pathname": "/{"}, 0)),
            (ValueError, ("no token", {"pathname": "/x"}, 0)),
            (ValueError, ("", {"pathname": "/x"}, 0)),
            (TypeError, (7, {"pathname": "/x"}, 0)),
            (TypeError, ("GET", {"path": "/x"}, 0)),
            (TypeError, ("GET", None, 0)),
        ):
            with self.subTest(arguments):
                self.assertRaises(error, routes.insert, *arguments)
        for method, name, words in (
            ("GET", "user", "another route has the name 'user'"),
            ("no token", "user", "another route has the name 'user'"),
            (None, "page", "the method None"),
            ("é", "page", "the method 'é'"),
            ("GET", "", "a name is not empty"),
            ("", "page", "a method is not empty"),
        ):
            with self.assertRaisesRegex(ValueError, words):
                routes.insert(method, {"pathname": "/x"}, 0, name=name)
        self.assertEqual(len(routes), 2)
        routes.insert(None, {"pathname": "/x"}, "last")
        self.assertEqual(routes.at("GET", "/x").value, "last")

    def test_patterns_are_of_each_kind(self):
        routes = URLPatternRouter()
        routes.insert("GET", URLPattern("https://example.com/a"), 0)
        routes.insert("GET", "/:b", 1, "https://example.com", ignore_case=True)
        self.assertEqual(routes.at_url("GET", "https://example.com/a").value, 0)
        self.assertEqual(routes.at_url("GET", "https://example.com/x")["b"], "x")


class Links(unittest.TestCase):
    def test_what_a_match_captures_decodes_to_what_was_given(self):
        routes = URLPatternRouter()
        routes.insert("GET", "https://example.com/users/:id", 0, name="user")
        self.assertEqual(routes.link("user", [("pathname", "id", "a/é")]),
                         "https://example.com/users/a%2F%C3%A9")
        self.assertRaises(ValueError, routes.link, "user", [])
        self.assertRaises(KeyError, routes.link, "page", [])
        self.assertRaises(KeyError, URLPatternRouter().link, "user")
        self.assertRaises(KeyError, URLPatternRouter().link, "user", [("pathname", "id", "7")])


class Copies(unittest.TestCase):
    def test_a_copy_is_a_router_of_its_own(self):
        routes = users()
        for copied in (copy.copy(routes), copy.deepcopy(routes), pickle.loads(pickle.dumps(routes))):
            routes.insert("GET", {"pathname": "/new"}, "new")
            self.assertEqual(copied.at("GET", "/users/7"), routes.at("GET", "/users/7"))
            self.assertIsNone(copied.at("GET", "/new"))
            copied.insert("GET", {"pathname": "/own"}, "own")
            self.assertIsNone(routes.at("GET", "/own"))
        self.assertIs(copy.copy(routes).at("PUT", "/users/7").value, routes.at("PUT", "/users/7").value)
        self.assertIsNot(copy.deepcopy(routes).at("PUT", "/users/7").value,
                         routes.at("PUT", "/users/7").value)


class Threads(unittest.TestCase):
    def test_each_request_of_a_shared_router_has_its_own_answer(self):
        routes = users()
        call = lambda n: (routes.at("PUT" if n % 2 else "GET", f"/users/{n}"))
        answer = lambda n: (str(n), n % 2)
        self.assertEqual(wrong_answers(lambda n: (call(n)["id"], call(n).index), answer, CALLS), 0)

    def test_a_route_that_is_there_has_its_value(self):
        routes, wrong = URLPatternRouter(), []

        def work(number):
            for n in range(number, 800, 8):
                routes.insert("GET", {"pathname": f"/{n}/:id"}, n)
                found = routes.at("GET", f"/{n}/{n}")
                if not isinstance(found, RouteMatch) or (found.value, found["id"]) != (n, str(n)):
                    wrong.append(found)

        in_threads(work)
        self.assertEqual((wrong, len(routes)), ([], 800))

    def test_a_fork_has_routers_of_its_own(self):
        routes = users()
        child = os.fork()
        if not child:
            os._exit(0 if routes.at("GET", "/users/7") else 1)
        self.assertEqual(os.waitpid(child, 0)[1], 0)


if __name__ == "__main__":
    unittest.main()
