"""Routers of requests."""
from __future__ import annotations

from dataclasses import dataclass
from typing import Any, Generic, Iterable, List, Optional, Tuple, TypeVar, Union

from ._handled import Handled, _new
from ._library import (
    DONE, LOCK, NAME_TAKEN, NO_MATCH, NO_PATH, NO_URL, NOT_A_METHOD, NOT_ALLOWED, NUMBERS, REFUSED,
    SIZE, SMALL, Call, RouterHandle, address, calls, checked, first_matched, put, quick, take,
    written,
)
from ._match import Match
from ._pattern import URLPattern, source_of_pattern
from ._texts import Groups, Init, Source, encode, encoded, refusal, url_texts

_router_at, _quick_first = calls.router_at, quick.first

Value = TypeVar("Value")


class RouteMatch(Match, Generic[Value]):
    """The match of a route, with the `value` that the route has."""

    __slots__ = ("value",)

    def __init__(self, index: int, groups: Groups, value: Value) -> None:
        super().__init__(index, groups)
        self.value = value

    def _content(self) -> Tuple[Any, ...]:
        return (*super()._content(), self.value)

    def __repr__(self) -> str:
        return f"RouteMatch(index={self.index}, groups={self.groups}, value={self.value!r})"


@dataclass
class MethodNotAllowed:
    """Some route matches, but none serves the method, as for the status 405. It is false. `methods`
    are those of the routes that match, for the header `Allow`."""

    methods: List[str]

    def __bool__(self) -> bool:
        return False


def _sized(text: Any, name: str) -> Tuple[Any, ...]:
    """A text with the number of its bytes, as arguments."""
    data = text.encode() if type(text) is str else encoded(text, name)
    size = len(data)
    return data, SMALL[size] if size < NUMBERS else SIZE[size]


def _word(text: Any, name: str) -> bytes:
    """The UTF-8 of a text that is not empty: of no bytes, the library makes none of them."""
    data = encoded(text, name)
    if not data:
        raise ValueError(f"{name} is not empty")
    return data


class URLPatternRouter(Handled, Generic[Value]):
    """Routes in their order, each with a pattern, a value, and the method that it serves. A copy is
    compiled again, and has the same values.

    >>> routes = URLPatternRouter()
    >>> routes.insert("GET", {"pathname": "/users/:id"}, "profile", name="user")
    >>> routes.insert("PUT", {"pathname": "/users/:id"}, "change")
    >>> found = routes.at("GET", "/users/7")
    >>> if found:
    ...     found.value, found["id"], found.index
    ('profile', '7', 0)
    >>> routes.at("PATCH", "/users/7")
    MethodNotAllowed(methods=['GET', 'PUT'])
    >>> routes.at("GET", "/posts/7")
    """

    __slots__ = ("_routes", "_values", "__dict__", "__weakref__")

    _group_name = staticmethod(calls.router_group_name)
    _functions = 0, 0, address("router_at"), 0

    def __init__(self) -> None:
        super().__init__(RouterHandle())
        self._routes: List[Tuple[Optional[str], Optional[str], Source]] = []
        self._values: List[Value] = []

    def __getstate__(self) -> Any:
        with LOCK:
            routes = [(name, method, tuple(source)) for name, method, source in self._routes]
            return self.__dict__, routes, self._values[:]

    def __setstate__(self, state: Any) -> None:
        attributes, routes, values = state
        URLPatternRouter.__init__(self)
        self.__dict__.update(attributes)
        for (name, method, source), value in zip(routes, values):
            self._insert(name, method, Source(*source), value)

    def __len__(self) -> int:
        return len(self._routes)

    def insert(
        self,
        method: Optional[str],
        pattern: Union[str, Init, URLPattern],
        value: Value,
        base: Optional[str] = None,
        *,
        name: Optional[str] = None,
        ignore_case: bool = False,
    ) -> None:
        """Compiles what a URLPattern is made of, and appends a route with the pattern, for requests
        with this method, or with any if it is None. `link` finds a route by its name. ValueError:
        another route has the name, the method is no token of HTTP, or it is None and there is a
        name; and URLPatternError as of URLPattern.

        >>> routes = URLPatternRouter()
        >>> routes.insert("GET", {"pathname": "/:page"}, "page", name="page")
        >>> routes.insert(None, {"pathname": "*"}, "other")
        >>> len(routes), routes.at("DELETE", "/x").value
        (2, 'other')
        """
        self._insert(name, method, source_of_pattern(pattern, base, ignore_case), value)

    def _insert(
        self, name: Optional[str], method: Optional[str], source: Source, value: Value
    ) -> None:
        """Compiles a source, and appends a route."""
        word = b"" if name is None else _word(name, "a name")
        served = b"" if method is None else _word(method, "a method")
        insert = calls.router_insert_init if isinstance(source.pattern, dict) else calls.router_insert
        words, texts = (word, len(word), served, len(served)), source.texts()
        with LOCK:
            self._values.append(value)
            status = insert(self._address, *words, *texts, source.ignore_case)
            if status == DONE:
                self._routes.append((name, method, source))
            else:
                self._values.pop()
        if status == REFUSED:
            raise refusal(source)
        if status == NAME_TAKEN:
            raise ValueError(f"another route has the name {name!r}")
        if status == NOT_A_METHOD:
            raise ValueError(f"the method {method!r} of a route is no token, such as 'GET'")
        checked(status)

    def at(self, method: str, path: str) -> Union[RouteMatch[Value], MethodNotAllowed, None]:
        """The match of the route that serves a request for a path, before its `?`: the first with
        the method, or for any method, that matches. None: no route matches, as for the status 404.
        `HEAD` is served as `GET` is, unless that route has the method `HEAD` itself. The path has
        no host, whatever it looks like, so no pattern with a host matches, and is not made
        canonical: `..` stays. ValueError: it is no path.

        >>> routes = URLPatternRouter()
        >>> routes.insert("GET", {"pathname": "/users/:id"}, "profile")
        >>> routes.at("HEAD", "/users/7").value
        'profile'
        >>> bool(routes.at("POST", "/users/7")), routes.at("POST", "/users/7").methods
        (False, ['GET'])
        """
        found: Any = None
        if self._bound is not None:
            found = _quick_first(self._bound, 0, method, path)
        if found is None:
            # (as below, with fewer calls)
            try:
                word, text = encode(method), encode(path)
                of_word, of_text, room = SMALL[len(word)], SMALL[len(text)], take()
            except (TypeError, IndexError):
                pass
            else:
                status = _router_at(
                    self._address, word, of_word, text, of_text,
                    room.for_number, room.text, room.room, room.spans, room.count, room.sizes,
                )
                if status == DONE:
                    found = room.number.value, room.copied()
                elif status == NO_MATCH:
                    found = False
                put(room)
        if found is None:
            texts = (*_sized(method, "a method"), *_sized(path, "a path"))
            return self._routed(_router_at, calls.router_allowed, texts)
        if found is False:
            return None
        index, data = found
        return self._route(index, data)

    def at_url(
        self,
        method: str,
        url: Optional[str] = None,
        base: Optional[str] = None,
        *,
        path: Optional[str] = None,
    ) -> Union[RouteMatch[Value], MethodNotAllowed, None]:
        """The match of the route that serves a request for a URL, which may be relative to a base
        URL, or for a path under a base URL, with its query, as `at` has it for a path by itself.
        None also: the text is no URL.

        >>> routes = URLPatternRouter()
        >>> routes.insert("GET", "https://example.com/users/:id", "profile")
        >>> routes.at_url("GET", "https://example.com/users/7")["id"]
        '7'
        >>> routes.at_url("GET", path="/a/../users/8?b=1", base="https://example.com")["id"]
        '8'
        """
        texts = (*_sized(method, "a method"), *url_texts(url, base, path))
        return self._routed(calls.router_at_url, calls.router_allowed_at_url, texts)

    def _route(self, index: int, data: bytes) -> RouteMatch[Value]:
        """The match of a route, as a call wrote it."""
        match: RouteMatch[Value] = self._found(_new(RouteMatch), index, data)
        match.value = self._values[index]
        return match

    def _routed(
        self, find: Call, allowed: Call, texts: Tuple[Any, ...]
    ) -> Union[RouteMatch[Value], MethodNotAllowed, None]:
        """What the router has for a request."""
        while True:
            status, room = first_matched(find, self._address, *texts)
            if status == DONE:
                return self._route(room.number.value, room.taken())
            room.leave()
            if status != NOT_ALLOWED:
                break
            status, methods = written(allowed, self._address, *texts)
            # Another thread may have added a route since then that serves the method.
            if status != NO_MATCH:
                break
        if status == DONE:
            return MethodNotAllowed(methods.split(", "))
        if status == NO_PATH:
            raise ValueError("not a path: it begins with `/`, and has no `?`, `#` or line feed")
        if status != NO_URL:
            checked(status)
        return None

    def link(self, name: str, groups: Iterable[Tuple[str, str, Optional[str]]] = ()) -> str:
        """The URL of the route with this name with these groups, as `link` of URLPattern has it,
        but percent-encoded: what a match captures decodes to exactly what was given. KeyError: no
        route has the name. ValueError: there is no such URL, and the message says why.

        >>> routes = URLPatternRouter()
        >>> routes.insert("GET", "https://example.com/users/:id", "profile", name="user")
        >>> routes.link("user", [("pathname", "id", "a/b c")])
        'https://example.com/users/a%2Fb%20c'
        """
        status, made = self._made(calls.router_link, _sized(name, "a name"), groups)
        if status != DONE:
            raise KeyError(name)
        return made
