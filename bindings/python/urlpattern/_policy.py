"""Policies of rules that allow or deny."""
from __future__ import annotations

import ctypes
from dataclasses import dataclass
from typing import Any, List, Mapping, Optional, Tuple, Union

from ._handled import Handled
from ._library import (
    ALLOW, DECISIONS, DONE, LOCK, NO_RULE, REFUSED, PolicyHandle, address, calls, checked, decided,
    quick,
)
from ._pattern import URLPattern, source_of_pattern
from ._texts import Init, Source, refusal, url_texts

# What a policy decides apart from its rules, as long as nothing else is said: whether it allows a
# URL that no rule matches, whether it brings URLs to their plain spelling, and whether it denies
# those with a user name or a password.
_STRICT = False, True, False


@dataclass(frozen=True)
class Decision:
    """What a policy decides about a URL, which is true if the URL is allowed. `reason` says why:
    "rule" or "default"; and of one that is denied also "not a URL", "too long", "not UTF-8",
    "out of memory" or "credentials". `rule` is the index of the rule that decides, if one does."""

    allowed: bool = False
    reason: str = "default"
    rule: Optional[int] = None

    def __bool__(self) -> bool:
        return self.allowed


class URLPolicy(Handled):
    """Rules in their order, each of which allows or denies the URLs that its pattern matches. The
    first rule that matches decides. What no rule matches is denied, unless `default_allows`, and so
    is whatever is in doubt. A URL is brought to its plain spelling before it is matched, unless
    `plain_spelling` is false, and one with a user name or a password is denied if
    `denies_credentials`. A copy is compiled again.

    >>> policy = URLPolicy()
    >>> policy.deny("https://example.com/docs/private/*")
    >>> policy.allow("https://example.com/docs/*")
    >>> policy.allows("https://example.com/docs/a"), policy.allows("https://example.com/docs/private/a")
    (True, False)
    >>> policy.allows("https://example.com/docs/%70rivate/a"), policy.allows("no URL"), policy.allows(None)
    (False, False, False)
    """

    __slots__ = ("_rules", "_options", "__dict__", "__weakref__")

    _functions = 0, 0, 0, address("policy_decide")

    def __init__(
        self,
        *,
        default_allows: bool = False,
        plain_spelling: bool = True,
        denies_credentials: bool = False,
    ) -> None:
        super().__init__(PolicyHandle())
        self._rules: List[Tuple[bool, Source]] = []
        self._options = default_allows, plain_spelling, denies_credentials
        for option in self._options:
            if not isinstance(option, bool):
                raise TypeError(f"an option of a policy is a bool, not {option!r}")
        if self._options != _STRICT:
            checked(calls.policy_set_options(self._address, *self._options))

    def __getstate__(self) -> Any:
        with LOCK:
            rules = [(allows, tuple(source)) for allows, source in self._rules]
            return self.__dict__, self._options, rules

    def __setstate__(self, state: Any) -> None:
        attributes, (default, plain, credentials), rules = state
        URLPolicy.__init__(
            self, default_allows=default, plain_spelling=plain, denies_credentials=credentials
        )
        self.__dict__.update(attributes)
        for allows, source in rules:
            self._add(allows, Source(*source))

    def __len__(self) -> int:
        return len(self._rules)

    def allow(
        self,
        pattern: Union[str, Init, URLPattern],
        base: Optional[str] = None,
        *,
        ignore_case: bool = False,
    ) -> None:
        """Compiles what a URLPattern is made of, and appends a rule that allows what it matches."""
        self._add(True, source_of_pattern(pattern, base, ignore_case))

    def deny(
        self,
        pattern: Union[str, Init, URLPattern],
        base: Optional[str] = None,
        *,
        ignore_case: bool = False,
    ) -> None:
        """Compiles what a URLPattern is made of, and appends a rule that denies what it matches."""
        self._add(False, source_of_pattern(pattern, base, ignore_case))

    def _add(self, allows: bool, source: Source) -> None:
        """Compiles a source, and appends a rule."""
        add = calls.policy_add_init if isinstance(source.pattern, Mapping) else calls.policy_add
        with LOCK:
            status = add(self._address, allows, *source.texts(), source.ignore_case)
            if status == DONE:
                self._rules.append((allows, source))
        if status == REFUSED:
            raise refusal(source)
        checked(status)

    def decide(self, url: Any, base: Any = None) -> Decision:
        """What is decided about a URL, which may be relative to a base URL, and why. No input
        raises an error: what is no text is no URL.

        >>> policy = URLPolicy(denies_credentials=True)
        >>> policy.allow("https://example.com/*")
        >>> policy.decide("https://example.com/a")
        Decision(allowed=True, reason='rule', rule=0)
        >>> policy.decide("https://me@example.com/a").reason, policy.decide(7).reason
        ('credentials', 'not a URL')
        """
        try:
            texts = url_texts(url, base, None)
        except UnicodeEncodeError:
            return Decision(reason=DECISIONS[5])
        except (TypeError, ValueError):
            return Decision(reason=DECISIONS[2])
        number, index = decided(self._address, *texts)
        rule = None if index == NO_RULE else index
        reason = DECISIONS.get(number) or ("default" if rule is None else "rule")
        return Decision(number == ALLOW, reason, rule)

    def allows(self, url: Any, base: Any = None) -> bool:
        """Whether a URL, which may be relative to a base URL, is allowed. No input raises an error:
        what is no text is no URL, and is denied."""
        # (a subclass may decide otherwise)
        if self._bound is not None and type(self) is URLPolicy:
            allowed: Optional[bool]
            allowed = quick.allows(self._bound, 0, url, "" if base is None else base)
            if allowed is not None:
                return allowed
        return self.decide(url, base).allowed
