"""Tests of threads that share objects, of forks, and of memory. `.ci/bindings` runs them."""
import copy
import ctypes
import os
import resource
import signal
import sys
import threading
import unittest
from unittest import mock

import urlpattern
from samples import (
    CALLS, COMPONENTS, FOLDERS, REPR, SOURCES, TEXTS, THREADS, groups, imported_as, route, url,
    wrong_answers,
)
from urlpattern import Match, URLPattern, URLPatternError, URLPatternList

DATED = "https://example.com/:year(\\d+)/:month/:day/:hour"
NAMES = ("year", "month", "day", "hour")


def asked(module):
    """What threads ask of shared objects, by a number, and what the answer is: of each call."""
    pattern, dated, wide = map(module.URLPattern, (SOURCES[0], DATED, SOURCES[2]))
    routes = module.URLPatternList(SOURCES)
    bounded = module.URLPattern(r"https://example.com/:x(\bx)")
    is_user = lambda n: route(n) == 0
    name_of = lambda n: COMPONENTS[n % len(COMPONENTS)]
    missing = lambda n: NAMES[n % len(NAMES)]
    given = lambda n: [("pathname", name, str(n)) for name in NAMES if name != missing(n)]
    return {
        "test": (lambda n: pattern.test(url(n)), is_user),
        "mismatch": (
            lambda n: pattern.mismatch(url(n)),
            lambda n: None if is_user(n) else "pathname",
        ),
        "exec": (
            lambda n: (pattern.exec(url(n)) or {}).get("pathname"),
            lambda n: {"groups": {"id": f"{n}"}, "input": f"/users/{n}"} if is_user(n) else None,
        ),
        "captures": (
            lambda n: pattern.captures(url(n)),
            lambda n: groups(n) if is_user(n) else None,
        ),
        "match": (
            lambda n: pattern.match(path=f"/{FOLDERS[route(n)]}/{n}", base="https://example.com"),
            lambda n: module.Match(0, groups(n)) if is_user(n) else None,
        ),
        "link": (
            lambda n: pattern.link([("pathname", "id", f"{n}")]),
            lambda n: f"https://example.com/users/{n}",
        ),
        "generate": (
            lambda n: pattern.generate("pathname", [("pathname", "id", f"{n}")]),
            lambda n: f"/users/{n}",
        ),
        "reason of link": (
            lambda n: said(lambda: dated.link(given(n))),
            lambda n: f"the group `pathname.{missing(n)}` is missing: give a text for it",
        ),
        "component": (lambda n: getattr(pattern, name_of(n)), lambda n: TEXTS[name_of(n)]),
        "has_regexp_groups": (lambda n: dated.has_regexp_groups, lambda n: True),
        "has_meaning": (
            lambda n: (dated, bounded)[n % 2].has_meaning,
            lambda n: n % 2 == 0,
        ),
        "repr": (lambda n: repr(pattern), lambda n: REPR),
        "text": (lambda n: routes[route(n)].text, lambda n: SOURCES[route(n)]),
        "equality": (lambda n: routes[route(n)] == pattern, is_user),
        "first of a dict": (
            lambda n: routes.first({"pathname": f"/posts/{n}", "baseURL": url(0)}).groups[2],
            lambda n: ("pathname", "id", f"{n}"),
        ),
        "first": (lambda n: routes.first(url(n)), lambda n: module.Match(route(n), groups(n))),
        "match of a route": (
            lambda n: routes[route(n)].match(url(n)),
            lambda n: module.Match(route(n), groups(n)),
        ),
        "test of a list": (lambda n: routes.test(route(n), url(n)), lambda n: True),
        "captures of a list": (lambda n: routes.captures(route(n), url(n)), groups),
        "component of a list": (
            lambda n: routes.component(route(n), "pathname"),
            lambda n: ("/users/:id", "/posts/:id", "/*")[route(n)],
        ),
        "covers": (
            lambda n: (wide, pattern)[n % 2].covers((pattern, wide)[n % 2]),
            lambda n: n % 2 == 0,
        ),
        "covers itself": (lambda n: pattern.covers(pattern), lambda n: True),
        "covers of a list": (lambda n: routes.covers(2, route(n)), lambda n: True),
        "len": (lambda n: len(routes), lambda n: len(SOURCES)),
    }


def said(call):
    """What the error of a call says."""
    try:
        return call()
    except ValueError as error:
        return str(error)


def module_without_lock():
    """The package where the interpreter has no lock: functions of a CDLL run without it."""
    has_none = mock.patch.object(sys, "_is_gil_enabled", lambda: False, create=True)
    with has_none, mock.patch.object(ctypes, "PyDLL", ctypes.CDLL):
        return imported_as("without_lock")


class Threads(unittest.TestCase):
    def test_each_call_of_shared_objects_has_its_own_answer(self):
        for name, (call, answer) in asked(urlpattern).items():
            with self.subTest(name):
                self.assertEqual(wrong_answers(call, answer), 0)

    def test_an_interpreter_without_a_lock(self):
        for name, (call, answer) in asked(module_without_lock()).items():
            with self.subTest(name):
                self.assertEqual(wrong_answers(call, answer, CALLS // 10), 0)

    def test_patterns_are_appended_while_others_are_read(self):
        routes, added = URLPatternList(SOURCES), 200 * THREADS

        def call(n):
            if n < added:
                routes.append(f"https://example.com/more/{n}/:id")
            return routes.first(url(n))

        answer = lambda n: Match(route(n), groups(n))
        self.assertEqual(wrong_answers(call, answer, 4 * added), 0)
        self.assertEqual(len(routes), len(SOURCES) + added)
        for index in range(len(routes)):
            source = "https://example.com" + routes.component(index, "pathname")
            self.assertTrue(URLPattern(source).covers(routes[index]))
            self.assertEqual(copy.copy(routes[index]).pathname, routes[index].pathname)

    def test_each_refused_pattern_has_its_own_place(self):
        def call(n):
            try:
                URLPattern(f"https://example.com/{'x' * (n % 7)}(")
            except URLPatternError as error:
                return error.place

        place = lambda n: (20 + n % 7, 21 + n % 7)
        self.assertEqual(wrong_answers(call, place, CALLS // 10), 0)


class Forks(unittest.TestCase):
    def test_a_child_uses_what_threads_used_when_it_was_made(self):
        routes, over = URLPatternList(SOURCES), threading.Event()

        def work():
            while not over.is_set():
                routes.first(url(len(URLPatternList(SOURCES))))

        threads = [threading.Thread(target=work) for _ in range(THREADS)]
        for thread in threads:
            thread.start()
        try:
            for _ in range(50):
                self.assertEqual(self.end_of_child(routes), 0)
        finally:
            over.set()
            for thread in threads:
                thread.join()

    def end_of_child(self, routes):
        """How a child ends that finds, appends and frees: with 0 if all is right."""
        child = os.fork()
        if child == 0:
            signal.alarm(20)
            try:
                routes.append("https://example.org/:id")
                right = all(routes.first(url(n)) == Match(route(n), groups(n)) for n in range(9))
                right = right and routes[-1].test("https://example.org/7")
                os._exit(not right)
            finally:
                os._exit(2)
        return os.waitstatus_to_exitcode(os.waitpid(child, 0)[1])


class Memory(unittest.TestCase):
    ROUNDS, MOST_GROWTH = 20_000, 10_000

    def test_patterns_that_are_freed_give_their_memory_back(self):
        URLPattern(SOURCES[0])
        before = resource.getrusage(resource.RUSAGE_SELF).ru_maxrss
        for _ in range(self.ROUNDS):
            URLPattern(SOURCES[0])
        self.assertLess(resource.getrusage(resource.RUSAGE_SELF).ru_maxrss - before, self.MOST_GROWTH)


if __name__ == "__main__":
    unittest.main()
