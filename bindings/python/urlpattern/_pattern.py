"""Patterns."""
from __future__ import annotations

from typing import Any, Dict, Iterable, Optional, Tuple, Union, cast

from ._handled import Patterns, _new, counterexample, covering_reason, covers, overlaps
from ._library import (
    COMPONENTS, DONE, NO_TEXT, NONE, SIZE, SMALL, TOO_LONG, calls, checked, put, quick, take,
)
from ._match import Match, Names
from ._texts import Groups, Init, Input, Source, encode, source_of

_test, _captures = calls.test, calls.captures
_quick_test, _quick_captures = quick.test, quick.captures


def source_of_pattern(
    pattern: Union[str, Init, URLPattern], base: Optional[str], ignore_case: bool
) -> Source:
    """What a pattern is compiled from."""
    if not isinstance(pattern, URLPattern):
        return source_of(pattern, base, ignore_case)
    if base is not None or ignore_case:
        raise TypeError("a URLPattern has a base URL, and ignores case, as it was made")
    return pattern._source


def _text_of(component: str) -> str:
    """An attribute of patterns: the text of a component."""
    text = lambda self: self._list.component(self._index, component)
    return cast(str, property(text, doc=f"The pattern text of the {component}."))


class URLPattern:
    """A pattern: a str, which is a constructor string, with a base URL if there is one; or a dict
    of the texts of components with a `baseURL`, where a port may be a number. With `ignore_case`
    the path, the query and the fragment are matched without regard to the case of ASCII letters.

    Patterns are equal if each component has the same parts, names and options in both, however they
    are written. `str` of a pattern is its `text`, if it has one, which does not say `ignore_case`. A
    copy is compiled again.

    >>> URLPattern("https://example.com/users/:id").test("https://example.com/users/7")
    True
    >>> URLPattern("/:id", "https://example.com")
    URLPattern({'protocol': 'https', 'hostname': 'example.com', 'port': '', 'pathname': '/:id'})
    >>> URLPattern({"hostname": "localhost", "port": 8080}).port
    '8080'
    >>> URLPattern({"pathname": "/:id"}) == URLPattern({"pathname": "{/:id}"})
    True
    """

    __slots__ = ("_list", "_index", "_address", "_at", "_bound", "_names")

    def __init__(
        self,
        pattern: Union[str, Init, URLPattern],
        base: Optional[str] = None,
        *,
        ignore_case: bool = False,
    ) -> None:
        patterns = Patterns()
        patterns._add(source_of_pattern(pattern, base, ignore_case))
        self._set(patterns, 0)

    def _set(self, patterns: Patterns, index: int) -> None:
        self._list, self._index = patterns, index
        self._address, self._at = patterns._address, SIZE[index]
        self._bound = patterns._bound
        # (from the first match on)
        self._names: Optional[Names] = None

    @classmethod
    def _of(cls, patterns: Patterns, index: int) -> URLPattern:
        """The pattern of an index."""
        made = cls.__new__(cls)
        made._set(patterns, index)
        return made

    @property
    def _source(self) -> Source:
        return self._list._sources[self._index]

    def __getstate__(self) -> Any:
        return getattr(self, "__dict__", {}), tuple(self._source)

    def __setstate__(self, state: Any) -> None:
        attributes, (pattern, base, ignore_case) = state
        URLPattern.__init__(self, pattern, base, ignore_case=ignore_case)
        for name, value in attributes.items():
            setattr(self, name, value)

    def __eq__(self, other: object) -> bool:
        if not isinstance(other, URLPattern):
            return False
        if self._is_of_list(other):
            return self._list.is_same(self._index, other._index)
        both = self._address, self._at, other._address, other._at
        return checked(calls.is_same_between(*both))

    def __hash__(self) -> int:
        return hash(tuple(getattr(self, name) for name in COMPONENTS))

    def __str__(self) -> str:
        return self.text or repr(self)

    def __repr__(self) -> str:
        texts = {name: getattr(self, name) for name in COMPONENTS}
        written = {name: text for name, text in texts.items() if text != "*"}
        return f"URLPattern({written}{', ignore_case=True' if self.ignore_case else ''})"

    @property
    def ignore_case(self) -> bool:
        """Whether the path, the query and the fragment are matched without regard to the case of
        ASCII letters.

        >>> URLPattern({"pathname": "/a"}, ignore_case=True)
        URLPattern({'pathname': '/a'}, ignore_case=True)
        """
        return self._source.ignore_case

    def test(
        self,
        url: Optional[Input] = None,
        base: Optional[str] = None,
        *,
        path: Optional[str] = None,
    ) -> bool:
        """Whether the pattern matches: a URL; a text that may be relative to a base URL; a path
        under a base URL, which begins with `/`, and has the host of the base whatever it is; or a
        dict of the texts of components with a `baseURL`, as browsers match it: what it leaves out
        is that of the base, or empty.

        >>> pattern = URLPattern("https://example.com/users/:id")
        >>> pattern.test("/users/7", "https://example.com")
        True
        >>> pattern.test(path="/users/7?tab=1", base="https://example.com")
        True
        >>> URLPattern("https://other.com/*").test(path="//other.com/x", base="https://example.com")
        False
        >>> pattern.test({"pathname": "/users/7", "baseURL": "https://example.com"})
        True
        """
        if path is None and self._bound is not None:
            found: Optional[bool]
            found = _quick_test(self._bound, self._index, url, "" if base is None else base)
            if found is not None:
                return found
        if base is None and path is None:
            try:
                text = encode(url)
                length = SMALL[len(text)]
            except (TypeError, IndexError):
                pass
            else:
                status: int = _test(self._address, self._at, text, length, NO_TEXT, NONE)
                return status == DONE if status < TOO_LONG else checked(status)
        return self._list.test(self._index, url, base, path=path)

    def match(
        self,
        url: Optional[Input] = None,
        base: Optional[str] = None,
        *,
        path: Optional[str] = None,
    ) -> Optional[Match]:
        """The match, or None.

        >>> match = URLPattern("https://example.com/users/:id").match("https://example.com/users/7")
        >>> match["id"], match.groupdict(), match.pathname
        ('7', {'id': '7'}, {'id': '7'})
        """
        data: Any = None
        if path is None and self._bound is not None:
            data = _quick_captures(self._bound, self._index, url, "" if base is None else base)
        if data is None and base is None and path is None:
            # (as there, with fewer calls, and without a list of the arguments)
            try:
                text = encode(url)
                length, room = SMALL[len(text)], take()
            except (TypeError, IndexError):
                pass
            else:
                status: int = _captures(
                    self._address, self._at, text, length, NO_TEXT, NONE,
                    room.text, room.room, room.spans, room.count, room.sizes,
                )
                if status == DONE:
                    data = room.bytes.raw if room.is_usual else room.copied()
                elif status < TOO_LONG:
                    data = False
                put(room)
        if data is None:
            return self._list._match(self._index, url, base, path)
        if data is False:
            return None
        match = _new(Match)
        match._data, match.index = data, self._index
        match._names = self._names or self._named(data)
        return match

    def _named(self, data: bytes) -> Names:
        """The names of the groups of each match. A call wrote one of them."""
        names = self._list._names.get(self._index) or self._list._names_of(self._index, data)
        self._names = names
        return names

    def mismatch(
        self, url: Optional[str] = None, base: Optional[str] = None, *, path: Optional[str] = None
    ) -> Optional[str]:
        """The first component that does not match, or None if each does. ValueError: the text is no
        URL.

        >>> URLPattern("https://example.com/users/:id").mismatch("https://example.com/about")
        'pathname'
        """
        return self._list.mismatch(self._index, url, base, path=path)

    def exec(
        self,
        url: Optional[Input] = None,
        base: Optional[str] = None,
        *,
        path: Optional[str] = None,
    ) -> Optional[Dict[str, Any]]:
        """The match as a browser has it, or None: a dict of components, each with `input` and
        `groups`.

        >>> found = URLPattern("https://example.com/users/:id").exec("https://example.com/users/7")
        >>> found["pathname"]
        {'groups': {'id': '7'}, 'input': '/users/7'}
        """
        return self._list.exec(self._index, url, base, path=path)

    def captures(
        self,
        url: Optional[Input] = None,
        base: Optional[str] = None,
        *,
        path: Optional[str] = None,
    ) -> Optional[Groups]:
        """The groups of the match, or None: a list of tuples of the component, the name, and what
        the group captured, which is None where it took no part. It has what `exec` has, in the
        order of the pattern, and takes less time.

        >>> URLPattern({"pathname": "/users/:id"}).captures("https://example.com/users/7")[4:6]
        [('port', '0', ''), ('pathname', 'id', '7')]
        """
        match = URLPattern.match(self, url, base, path=path)
        return None if match is None else match.groups

    def link(self, groups: Iterable[Tuple[str, str, Optional[str]]] = ()) -> str:
        """The URL that the pattern matches with these groups, each a tuple of the component, the
        name and the text, as `captures` gives them; one whose text is None takes no part.
        ValueError: there is no such URL, and the message says why.

        >>> URLPattern("https://example.com/users/:id").link([("pathname", "id", "a b")])
        'https://example.com/users/a%20b'
        """
        return self._list.link(self._index, groups)

    def generate(
        self, component: str, groups: Iterable[Tuple[str, str, Optional[str]]] = ()
    ) -> str:
        """The text of a component that the pattern matches with these groups, as `link` has a whole
        URL. Groups of other components are passed over. ValueError: there is no such text, and the
        message says why.

        >>> URLPattern({"pathname": "/users/:id"}).generate("pathname", [("pathname", "id", "7")])
        '/users/7'
        """
        return self._list.generate(self._index, component, groups)

    def covers(self, asked: URLPattern) -> Optional[bool]:
        """Whether the pattern matches each URL that the asked pattern matches, or None if it is not
        known.

        >>> URLPattern("https://example.com/*").covers(URLPattern("https://example.com/users/:id"))
        True
        """
        if self._is_of_list(asked):
            return self._list.covers(self._index, asked._index)
        both = self._address, self._at, asked._address, asked._at
        return covers(calls.covers_between, *both)

    def covering_reason(self, asked: URLPattern) -> Optional[str]:
        """Why `covers` returns None: "custom expression", "ignored case" or "too many steps". None:
        it returns something else.

        >>> numbers = URLPattern({"pathname": r"/:id(\\d+\\b)"})
        >>> numbers.covers(URLPattern({"pathname": "/7"}))
        >>> numbers.covering_reason(URLPattern({"pathname": "/7"}))
        'custom expression'
        """
        if self._is_of_list(asked):
            return self._list.covering_reason(self._index, asked._index)
        both = self._address, self._at, asked._address, asked._at
        return covering_reason(calls.covering_reason_between, *both)

    def counterexample(self, asked: URLPattern) -> Optional[Dict[str, str]]:
        """Texts of components that the asked pattern matches and this one does not, without those
        that are not known; or None if there are none, or it is not known.

        >>> users = URLPattern("https://example.com/users/:id")
        >>> users.counterexample(URLPattern("https://example.com/*"))["pathname"]
        '/'
        """
        if self._is_of_list(asked):
            return self._list.counterexample(self._index, asked._index)
        both = self._address, self._at, asked._address, asked._at
        return counterexample(calls.counterexample_between, *both)

    def overlaps(self, other: URLPattern) -> Optional[bool]:
        """Whether there are texts that both patterns match, or None if it is not known.

        >>> users = URLPattern({"pathname": "/users/:id"})
        >>> users.overlaps(URLPattern({"pathname": "/*/7"}))
        True
        """
        if self._is_of_list(other):
            return self._list.overlaps(self._index, other._index)
        both = self._address, self._at, other._address, other._at
        return overlaps(calls.overlaps_between, *both)

    def _is_of_list(self, other: URLPattern) -> bool:
        """Whether the other pattern is one of the same handle."""
        if not isinstance(other, URLPattern):
            raise TypeError(f"what is compared is a URLPattern, not {type(other).__name__}")
        return other._list is self._list

    @property
    def text(self) -> Optional[str]:
        """The pattern as one text, of which URLPattern makes the same one, with the same
        `ignore_case`; or None if it has none.

        >>> URLPattern({"protocol": "https", "hostname": "example.com", "pathname": "/:id"}).text
        'https://example.com:*/:id'
        """
        return self._list.text(self._index)

    @property
    def has_regexp_groups(self) -> bool:
        """Whether the pattern has a custom regular expression."""
        return self._list.has_regexp_groups(self._index)

    @property
    def has_meaning(self) -> bool:
        """Whether each component of the pattern has a meaning, so that its text alone says what it
        matches and captures: each custom regular expression is simple, as `\\d+`, `en|fr` and
        `[^/]+` are, without an assertion as `\\b`, a flag, or a group that captures.

        >>> URLPattern({"pathname": r"/:id(\\d+)"}).has_meaning
        True
        """
        return self._list.has_meaning(self._index)

    protocol = _text_of("protocol")
    username = _text_of("username")
    password = _text_of("password")
    hostname = _text_of("hostname")
    port = _text_of("port")
    pathname = _text_of("pathname")
    search = _text_of("search")
    hash = _text_of("hash")
