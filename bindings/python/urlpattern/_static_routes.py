"""Static routes of service workers."""
from __future__ import annotations

import ctypes
import json
from dataclasses import dataclass
from typing import Any, Dict, List, NamedTuple, Optional, Tuple, Union

from ._handled import Handled
from ._library import (
    COMPONENTS, DONE, NAMED_CACHE, NO_PATTERN, NO_URL, REFUSED, SIZE, RouteFaultPlace,
    StaticRoutesHandle, calls, checked, memory, written,
)
from ._texts import encoded, indices

# Rules as a browser takes them: some or one, as what `json.loads` returns, or as its text.
Rules = Union[str, Dict[str, Any], List[Dict[str, Any]], Tuple[Dict[str, Any], ...]]

# The members of rules, by the numbers of the library.
_MEMBERS = (
    *("", "condition", "urlPattern", "requestMethod", "requestMode", "requestDestination"),
    *("runningStatus", "or", "not", "source"),
)


@dataclass(frozen=True)
class RouteFault:
    """Why a rule is rejected. `rule` is its index and `member` the member that is at fault, both
    None if there are too many rules. Of a pattern that is rejected `text` is the one at fault, and
    `place` the span in it, as indices of a str; `component` is the one at fault, if one is."""

    rule: Optional[int]
    member: Optional[str]
    reason: str
    text: Optional[str] = None
    place: Optional[Tuple[int, int]] = None
    in_base: bool = False
    component: Optional[str] = None

    def __str__(self) -> str:
        where = "" if self.rule is None else f"rule {self.rule}: {self.member}: "
        return where + self.reason


class StaticRoutesError(ValueError):
    """Rules are rejected. `faults` has all of their faults, or none if a text is no JSON.

    >>> try:
    ...     StaticRoutes({"condition": {"urlPattern": "/a/(b"}}, "https://example.com/sw.js")
    ... except StaticRoutesError as error:
    ...     [(fault.member, fault.text, fault.place) for fault in error.faults]
    [('source', None, None), ('urlPattern', '/a/(b', (3, 4))]
    """

    def __init__(self, faults: List[RouteFault]) -> None:
        super().__init__("; ".join(map(str, faults)) or "the rules are no JSON")
        self.faults = faults

    def __reduce__(self) -> Any:
        return type(self), (self.faults,), self.__dict__


class RouteDecision(NamedTuple):
    """The index of the rule that decides about a request, where its response comes from, and of a
    named cache its name."""

    rule: int
    source: str
    cache: Optional[str] = None


class StaticRoutes(Handled):
    """The static routes of a service worker, as `InstallEvent.addRoutes()` takes them, which are
    checked as browsers check them. `script` is the URL of the worker's script, without a fragment,
    under which patterns are read, and `has_handler` says whether the worker has a handler of fetch
    events.

    >>> routes = StaticRoutes(
    ...     {"condition": {"urlPattern": "/img/*", "requestMethod": "get"}, "source": "cache"},
    ...     "https://example.com/sw.js",
    ... )
    >>> routes.decide("https://example.com/img/a.png")
    RouteDecision(rule=0, source='cache', cache=None)
    >>> routes.decide("https://example.com/img/a.png", "PUT") is None
    True
    """

    __slots__ = ("_given", "__dict__", "__weakref__")

    def __init__(self, rules: Rules, script: str, *, has_handler: bool = True) -> None:
        super().__init__(StaticRoutesHandle())
        text = rules if isinstance(rules, str) else json.dumps(rules, ensure_ascii=False)
        self._given = text, script, bool(has_handler)
        url, data = encoded(script, "the URL of a script"), encoded(text, "JSON")
        status = calls.static_routes_read(
            self._address, url, len(url), data, len(data), self._given[2]
        )
        if status == NO_URL:
            raise ValueError("the script has no URL")
        if status == REFUSED:
            raise StaticRoutesError(self._faults())
        checked(status)

    def __getstate__(self) -> Any:
        return self.__dict__, self._given

    def __setstate__(self, state: Any) -> None:
        attributes, (rules, script, has_handler) = state
        StaticRoutes.__init__(self, rules, script, has_handler=has_handler)
        self.__dict__.update(attributes)

    def _faults(self) -> List[RouteFault]:
        """The faults of the rules, if these are rejected."""
        faults: List[RouteFault] = []
        found = RouteFaultPlace()
        while True:
            at = self._address, SIZE[len(faults)]
            status, reason = written(calls.static_routes_fault, *at, after=(ctypes.byref(found),))
            if status == NO_PATTERN:
                return faults
            checked(status)
            status, shown = written(calls.static_routes_text_at_fault, *at)
            text = shown if status == DONE else None
            faults.append(_fault(found, reason, text))

    def decide(
        self,
        url: str,
        method: str = "GET",
        *,
        mode: str = "cors",
        destination: str = "",
        is_running: bool = True,
    ) -> Optional[RouteDecision]:
        """What is decided about a request, or None if no rule's condition holds, so that the
        handler gets it, or the network if there is none. `destination` is as `image`, and empty for
        a call of `fetch`. A worker that is starting is not running.

        >>> routes = StaticRoutes([], "https://example.com/sw.js")
        >>> routes.decide("https://example.com/", mode="navigate", destination="document") is None
        True
        """
        arguments: List[Any] = []
        named = (url, "a URL"), (method, "a method"), (mode, "a mode")
        for text, name in (*named, (destination, "a destination")):
            data = encoded(text, name)
            arguments += data, SIZE[len(data)]
        room = memory()
        status = calls.static_routes_decide(
            self._address, *arguments, ctypes.c_bool(bool(is_running)), room.for_number
        )
        rule = room.number.value
        room.leave()
        if status == NO_URL:
            raise ValueError(f"no URL: {url[:40]!r}")
        return RouteDecision(rule, *self._source(rule)) if checked(status) else None

    def _source(self, rule: int) -> Tuple[str, Optional[str]]:
        """The source of a rule, and of a named cache its name."""
        number = ctypes.c_uint32()
        of = self._address, SIZE[rule], ctypes.byref(number)
        status, text = written(calls.static_routes_source, *of)
        checked(status)
        return ("cache", text) if number.value == NAMED_CACHE else (text, None)


def _fault(found: Any, reason: str, text: Optional[str]) -> RouteFault:
    """A fault as the library writes it, with the text that is at fault."""
    if not found.member:
        return RouteFault(None, None, reason)
    subject = found.place.subject
    component = COMPONENTS[subject - 2] if subject > 1 else None
    place = None if text is None else indices(text, found.place)
    member = _MEMBERS[found.member]
    return RouteFault(found.rule, member, reason, text, place, subject == 1, component)
