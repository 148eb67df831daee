"""What `.ci/bindings` asks the Python package: the rows, the tests, the sessions of its page and docstrings, and whether it has types."""
import doctest
import importlib
import json
import os
import pathlib
import re
import shutil
import subprocess
import sys
import tempfile
import unittest

from asked_rows import COMPONENTS, ignores, is_init, lacking_by_case

ROOT = os.path.dirname(os.path.dirname(os.path.abspath(__file__)))
C, PYTHON = f"{ROOT}/bindings/c", f"{ROOT}/bindings/python"
TESTS = ("test_urlpattern", "test_arguments", "test_copies", "test_threads", "test_router", "test_policy", "test_static_routes", "test_quick")
# What has parts of the package: the tests and what they share, and the package by other names.
IMPORTED = ("urlpattern", "without_lock", "by_ctypes", "samples", *TESTS)
WARNINGS = ("-Wall", "-Wextra", "-Werror", "-Wno-unused-parameter", "-Wno-missing-field-initializers")
# The programs that docs/C.md shows.
EXAMPLES = ("example", "router")


def ask_python(question, answer, module):
    """Whether the package gives the answer of a row."""
    given_as = lambda it: (it.get("string", it.get("init")), it.get("base"))
    if question["op"] == "covers":
        both, found = [question["pattern"], question["asked"]], answer["ok"]["covers"]
        pattern, asked = (module.URLPattern(*given_as(it), ignore_case=ignores(it)) for it in both)
        patterns = module.URLPatternList()
        for it in both:
            patterns.append(*given_as(it), ignore_case=ignores(it))
        covers = None if "unknown" in found else found == "covered"
        overlap = answer["ok"]["overlaps"]
        overlaps = None if isinstance(overlap, dict) else overlap != "apart"
        is_same = pattern.overlaps(asked) is overlaps and patterns.overlaps(0, 1) is overlaps
        is_same = is_same and pattern.covers(asked) is covers and patterns.covers(0, 1) is covers
        return is_same and all(is_counterexample(it, found) for it in (pattern.counterexample(asked), patterns.counterexample(0, 1)))
    if question["op"] == "meaning":
        given = question["pattern"]
        return module.URLPattern(*given_as(given), ignore_case=ignores(given)).has_meaning is not bool(lacking_by_case(answer))
    if question["op"] == "first_match":
        patterns = module.URLPatternList()
        for it in question["patterns"]:
            patterns.append(*given_as(it), ignore_case=ignores(it))
        asked = [(given_as(it), found and found["index"]) for it, found in zip(question["inputs"], answer["ok"]["results"]) if "string" in it or is_init(it)]
        match = lambda it, at: None if at is None else patterns[at].match(*it)
        return all(patterns.first(*it) == match(it, at) for it, at in asked)
    try:
        pattern = module.URLPattern(*given_as(question), ignore_case=ignores(question))
    except module.URLPatternError as error:
        return "err" in answer and bool(str(error))
    if question["op"] == "link":
        return is_linked(pattern, question, answer["ok"])
    if question["op"] == "generate":
        return is_generated(pattern, question, answer["ok"])
    if question["op"] == "text":
        return is_text(pattern, question, answer["ok"]["text"], module)
    if "err" in answer or any(getattr(pattern, name) != answer["ok"][name] for name in (*COMPONENTS, "has_regexp_groups")):
        return False
    for given, found in zip(question.get("inputs", []), answer["ok"].get("results", [])):
        if ("string" in given or is_init(given)) and not is_matched(pattern, given_as(given), found):
            return False
    return True


def is_counterexample(texts, found):
    """Whether the texts have one that is as long as the row says, or there are none where it says that."""
    return len(texts[found["component"]]) == found["length"] if "component" in found else texts is None


def is_text(pattern, question, text, module):
    """Whether this is the text of the pattern, and the pattern of the text is the same one."""
    if pattern.text != text:
        return False
    again = pattern if text is None else module.URLPattern(text, ignore_case=ignores(question))
    return again == pattern and hash(again) == hash(pattern) and (text is None or str(pattern) == text)


def is_linked(pattern, question, answer):
    """Whether the pattern has this URL with these groups, or those of a match."""
    matched = question.get("of", question.get("of_result"))
    try:
        return pattern.link(pattern.captures(matched) if matched else question["groups"]) == answer.get("url")
    except ValueError as error:
        return "refused" in answer and answer.get("component", "") in str(error)


def is_generated(pattern, question, answer):
    """Whether the component has this text with these groups."""
    try:
        return pattern.generate(question["component"], question["groups"]) == answer.get("text")
    except ValueError as error:
        return "refused" in answer and answer["component"] in str(error)


def is_matched(pattern, given, found):
    """Whether each call that matches has this result."""
    match, captures = pattern.match(*given), pattern.captures(*given)
    if found is None or match is None:
        same = found is match is captures
    else:
        same = match.groups == captures and all(getattr(match, name) == found[name]["groups"] for name in COMPONENTS)
    same = same and pattern.exec(*given) == found and pattern.test(*given) == bool(found)
    same = same and (isinstance(given[0], dict) or misses(pattern, *given) != bool(found))
    return same and (not is_path(*given) or pattern.test(path=given[0], base=given[1]) == bool(found))


def is_path(url, base):
    """Whether a text is a path, which no reading takes to another host than that of its base."""
    return base and isinstance(url, str) and url.startswith("/") and not re.match(r"/[\t\n\r]*[/\\]", url)


def misses(pattern, url, base):
    """Whether a component of the URL does not match, or there is no URL."""
    try:
        return pattern.mismatch(url, base) is not None
    except ValueError:
        return True


def is_shown(module):
    """Whether the pages and docstrings show the programs as they are, and sessions that go as they say."""
    read = lambda path: pathlib.Path(path).read_text()
    page = read(f"{ROOT}/docs/C.md")
    shows = all(f"```c\n{read(f'{C}/{name}.c')}```" in page for name in EXAMPLES)
    session = doctest.testfile(f"{ROOT}/docs/PYTHON.md", module_relative=False)
    return shows and not session.failed and not failed_examples(module)


def failed_examples(module):
    """How many examples fail in the docstrings of the package."""
    runner, finder = doctest.DocTestRunner(), doctest.DocTestFinder()
    public = [it for name in module.__all__ if isinstance(it := getattr(module, name), type)]
    kinds = dict.fromkeys(base for it in public for base in it.__mro__ if base.__module__.startswith(module.__name__))
    for test in [*finder.find(module), *(test for it in kinds for test in finder.find(it, module=False, globs=dict(vars(module))))]:
        runner.run(test)
    return runner.failures


def tested():
    """How many tests of the package pass, and how many do not."""
    tests = unittest.defaultTestLoader.loadTestsFromNames(TESTS)
    found = unittest.TextTestRunner(sys.stdout).run(tests)
    failed = len(found.failures) + len(found.errors)
    return max(found.testsRun - failed - len(found.skipped), 0), failed


def mistyped():
    """Whether the package lacks types, as far as mypy of the machine can say."""
    if not shutil.which("mypy"):
        print("bindings: the machine has no mypy: the types are not checked")
        return 0
    return subprocess.run(["mypy", "--strict", "--cache-dir=/dev/null", f"{PYTHON}/urlpattern"]).returncode


def ask_module(asked, shared):
    """How many rows and tests the Python package passes over a shared object, and how many it does
    not: with its extension, if the machine builds it, and without."""
    os.environ["URLPATTERN_LIBRARY"] = shared
    sys.path[:0] = [PYTHON, f"{ROOT}/packages"]
    packages = importlib.import_module("packages")
    counts = [(0, mistyped()), ask_package(asked, PYTHON, False)]
    if packages.extension(*WARNINGS):
        with tempfile.TemporaryDirectory() as room:
            packages.put_python_files(room)
            counts.append(ask_package(asked, room, True))
    return tuple(map(sum, zip(*counts)))


def ask_package(asked, folder, has_extension):
    """How many rows and tests the package of a folder passes, which is imported anew, as its tests are."""
    for name in [it for it in sys.modules if it.split(".")[0] in IMPORTED]:
        del sys.modules[name]
    sys.path.insert(0, folder)
    urlpattern = importlib.import_module("urlpattern")
    sys.path.remove(folder)
    passed, failed = tested()
    if bool(urlpattern._library.quick.bind) != has_extension:
        failed += 1
        print(f"bindings: the Python package of {folder} is not the one with its extension, or without, that was meant")
    for question, answer in asked:
        if ask_python(question, answer, urlpattern):
            passed += 1
        else:
            failed += 1
            print(f"bindings: Python has another answer to {json.dumps(question, ensure_ascii=False)}")
    if is_shown(urlpattern):
        passed += 1
    else:
        failed += 1
        print("bindings: docs/C.md, docs/PYTHON.md or a docstring shows another program or session")
    return passed, failed
