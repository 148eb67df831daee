"""Tests of policies, beside the rows. `.ci/bindings` runs them."""
import copy
import json
import pathlib
import pickle
import unittest

from samples import CALLS, wrong_answers
from urlpattern import Decision, URLPattern, URLPatternError, URLPolicy

ROWS = pathlib.Path(__file__).parents[2] / "crates/bench/data/policies.jsonl"


def policy_of(question):
    """The policy of a row."""
    policy = URLPolicy(
        default_allows=question.get("default") == "allow",
        plain_spelling=not question.get("as_spelled"),
        denies_credentials=bool(question.get("denies_credentials")),
    )
    for rule in question["rules"]:
        for effect in ("allow", "deny"):
            if effect in rule:
                getattr(policy, effect)(rule[effect])
    return policy


def shown(decision):
    """A decision, as the rows have it, but for why a text is no URL."""
    words = {"rule": "allow" if decision else "deny", "default": "allow" if decision else "deny"}
    word = words.get(decision.reason, {"not a URL": "no URL"}.get(decision.reason, decision.reason))
    return word if decision.rule is None else f"{word} {decision.rule}"


class Decisions(unittest.TestCase):
    def test_each_row_has_its_answer(self):
        for line in ROWS.read_text().splitlines():
            row = json.loads(line)
            policy, base = policy_of(row["in"]), row["in"].get("base")
            for asked in row["out"]["ok"]["decisions"]:
                with self.subTest(asked):
                    decision = policy.decide(asked["of"], base)
                    self.assertEqual(shown(decision), asked["is"].split(":")[0])
                    self.assertIs(policy.allows(asked["of"], base), asked["is"].startswith("allow"))

    def test_no_input_raises_an_error(self):
        policy = URLPolicy(default_allows=True)
        url = "https://example.com/"
        for asked in (None, 7, b"https://example.com/", [], {}, object(), URLPattern(url), "\ud800"):
            for given in ((asked,), (url, asked if asked is not None else 7)):
                with self.subTest(given):
                    self.assertIs(policy.allows(*given), False)
        self.assertEqual(policy.decide("x" * (1 << 24)).reason, "too long")
        self.assertEqual(policy.decide("\ud800").reason, "not UTF-8")
        self.assertIs(policy.allows(url), True)

    def test_nothing_is_allowed_without_a_word(self):
        self.assertEqual(URLPolicy().decide("https://example.com/"), Decision())
        self.assertFalse(Decision())

    def test_a_refused_rule_is_not_appended(self):
        policy = URLPolicy()
        self.assertRaises(URLPatternError, policy.allow, "https://example.com/{")
        self.assertRaises(TypeError, policy.allow, {"path": "/admin"})
        policy.allow({"hostname": "example.com"})
        self.assertEqual((len(policy), policy.decide("https://example.com/a").rule), (1, 0))


class Copies(unittest.TestCase):
    def test_a_copy_is_a_policy_of_its_own(self):
        policy = URLPolicy(denies_credentials=True)
        policy.deny("https://example.com/a")
        policy.allow("https://example.com/*")
        for copied in (copy.copy(policy), copy.deepcopy(policy), pickle.loads(pickle.dumps(policy))):
            for url in ("https://example.com/a", "https://example.com/b", "https://me@example.com/b"):
                self.assertEqual(copied.decide(url), policy.decide(url))
            copied.allow("https://other.com/*")
            self.assertFalse(policy.allows("https://other.com/x"))


class Threads(unittest.TestCase):
    def test_each_call_of_a_shared_policy_has_its_own_answer(self):
        policy = URLPolicy()
        policy.deny("https://example.com/denied/*")
        policy.allow("https://example.com/*")
        url = lambda n: f"https://example.com/{'denied' if n % 2 else 'page'}/{n}"
        answer = lambda n: Decision(n % 2 == 0, "rule", 1 - n % 2)
        self.assertEqual(wrong_answers(lambda n: policy.decide(url(n)), answer, CALLS), 0)


if __name__ == "__main__":
    unittest.main()
