"""What several tests of the package share."""
import importlib.util
import os
import sys
import threading

import urlpattern
from urlpattern import _library

# Threads, and how many calls they make together of each method.
THREADS, CALLS = 8, int(os.environ.get("CALLS", 20_000))

# A URL for each number, by three routes in turn.
FOLDERS = ("users", "posts", "files")
SOURCES = [f"https://example.com/{path}" for path in ("users/:id", "posts/:id", "*")]
COMPONENTS = _library.COMPONENTS
TEXTS = dict.fromkeys(COMPONENTS, "*")
TEXTS.update(protocol="https", hostname="example.com", port="", pathname="/users/:id")
REPR = f"URLPattern({ {name: text for name, text in TEXTS.items() if text != '*'} })"


def route(n):
    return n % len(FOLDERS)


def url(n):
    return f"https://example.com/{FOLDERS[route(n)]}/{n}"


def groups(n):
    """What the route of a URL captures of it."""
    path = ("0", f"files/{n}") if route(n) == 2 else ("id", str(n))
    open_before, open_after = ("username", "password"), ("search", "hash")
    return [
        *((name, "0", "") for name in open_before),
        ("pathname", *path),
        *((name, "0", "") for name in open_after),
    ]


def imported_as(name):
    """The package, imported once more by another name."""
    spec = importlib.util.spec_from_file_location(name, urlpattern.__file__)
    made = sys.modules[name] = importlib.util.module_from_spec(spec)
    spec.loader.exec_module(made)
    return made


def in_threads(work):
    """Does this in each thread, with its number. The interpreter goes from one thread to another as
    often as it can."""
    threads = [threading.Thread(target=work, args=(number,)) for number in range(THREADS)]
    interval = sys.getswitchinterval()
    sys.setswitchinterval(1e-6)
    try:
        for thread in threads:
            thread.start()
        for thread in threads:
            thread.join()
    finally:
        sys.setswitchinterval(interval)


def wrong_answers(call, answer, calls=CALLS):
    """How many calls of the threads return something else than the answer, or raise an error."""
    wrong = [0] * THREADS

    def work(number):
        for n in range(number, calls, THREADS):
            try:
                wrong[number] += call(n) != answer(n)
            except Exception:
                wrong[number] += 1

    in_threads(work)
    return sum(wrong)
