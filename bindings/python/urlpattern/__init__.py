"""URL patterns, as those of browsers, over the C interface of the library `urlpattern`.

    >>> pattern = URLPattern("https://example.com/users/:id")
    >>> pattern.match("https://example.com/users/7")["id"]
    '7'

The shared object is the one that the environment variable URLPATTERN_LIBRARY names, or else
`liburlpattern.so` beside this file.

A text or a dict that is no URL does not match, so that a rule that denies what matches lets it
through: reject it before the call. `mismatch` raises ValueError where a text is no URL, and each
call does where a URL or base has 16 MB (2**24 bytes in UTF-8) or more. A base does not tie a URL to
its host: `//other.com/x` and `https://other.com/x` have the host other.com under each base of the
web. What comes as the path of a request is given as `path=`, which has the host of its base.

Threads may share an object. Each call has memory of its own for what it returns, and the
interpreter's lock is held while the library runs (an interpreter without it gets a lock of this
module). A pattern that one thread appends is there for all once `append` returns. The proofs of the
library are about calls of a handle that come one after the other, of whichever thread. That the
lock lets one call at a time in is not proved but tested, by eight threads that share objects.
"""
from __future__ import annotations

from typing import Tuple

from ._library import calls as _calls
from ._list import URLPatternList
from ._match import Match
from ._pattern import URLPattern
from ._policy import Decision, URLPolicy
from ._router import MethodNotAllowed, RouteMatch, URLPatternRouter
from ._static_routes import RouteDecision, RouteFault, StaticRoutes, StaticRoutesError
from ._texts import Groups, Init, URLPatternError

__all__ = [
    *("Decision", "Groups", "Init", "Match", "MethodNotAllowed", "RouteDecision", "RouteFault"),
    *("RouteMatch", "StaticRoutes", "StaticRoutesError", "URLPattern", "URLPatternError"),
    *("URLPatternList", "URLPatternRouter", "URLPolicy", "version"),
]

_classes = Match, MethodNotAllowed, RouteMatch, URLPattern, URLPatternList, URLPatternRouter
_routes = RouteDecision, RouteFault, StaticRoutes, StaticRoutesError
for _each in (*_classes, *_routes, Decision, URLPatternError, URLPolicy):
    _each.__module__ = __name__


def version() -> Tuple[int, int]:
    """The version of the library.

    >>> version()
    (2, 0)
    """
    number: int = _calls.version()
    return divmod(number, 1000)
