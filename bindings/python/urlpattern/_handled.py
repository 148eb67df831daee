"""Patterns of a handle, each named by its index."""
from __future__ import annotations

import ctypes
import json
from typing import Any, Dict, Iterable, List, Mapping, Optional, Tuple, TypeVar, cast

from ._library import (
    COMPONENTS, DONE, LOCK, NO_PATTERN, NO_TEXT, NO_URL, NONE, REASONS, REFUSED, SIZE, SIZES, SMALL,
    SPAN, TOO_LONG, UNKNOWN, Call, Handle, address, bound, calls, checked, first_matched, matched,
    put, quick, take, written,
)
from ._match import Match, Names
from ._texts import (
    Groups, Input, Source, encode, group_texts, init_text, number_of, refusal, url_texts,
)

_test, _exec = calls.test, calls.exec
_captures, _first_captures = calls.captures, calls.first_captures
_quick_first = quick.first

# Makes an object without its `__init__`, which takes longer than to set what it has.
_new = object.__new__

Found = TypeVar("Found", bound=Match)


def _is_init(url: Any) -> bool:
    """Whether what is matched is a dict."""
    return not (url is None or isinstance(url, str)) and isinstance(url, Mapping)


def covers(function: Call, *patterns: Any) -> Optional[bool]:
    """Whether the one of two patterns covers the other, or None if it is not known."""
    status = function(*patterns, ctypes.byref(ctypes.c_uint32()))
    return None if status == UNKNOWN else checked(status)


def covering_reason(function: Call, *patterns: Any) -> Optional[str]:
    """Why it is not known whether the one of two patterns covers the other, or None if it is."""
    number = ctypes.c_uint32()
    status = function(*patterns, ctypes.byref(number))
    return REASONS[number.value] if checked(status) else None


def counterexample(function: Call, *patterns: Any) -> Optional[Dict[str, str]]:
    """Texts that the one of two patterns matches and the other does not, or None if there are none
    or it is not known."""
    status, text = written(function, *patterns)
    found: Optional[Dict[str, str]] = json.loads(text) if text else None
    return found if status == UNKNOWN or checked(status) else None


def overlaps(function: Call, *patterns: Any) -> Optional[bool]:
    """Whether both patterns match some texts, or None if it is not known."""
    status, _ = written(function, *patterns)
    return None if status == UNKNOWN else checked(status)


class Handled:
    """What a handle keeps, which is this object's alone."""

    __slots__ = ("_handle", "_address", "_bound", "_names")

    # What writes the name of a group.
    _group_name: Any = staticmethod(calls.group_name)

    # The addresses of what the extension calls, or 0: of `test`, of `captures`, of what finds the
    # first match, and of what a policy decides.
    _functions = 0, 0, 0, 0

    def __init__(self, handle: Any) -> None:
        self._handle = handle
        self._address = ctypes.byref(handle)
        self._bound = bound(handle, self._functions)
        self._names: Dict[int, Names] = {}

    def _found(self, match: Found, index: int, data: bytes) -> Found:
        """The match, which is that of this index, as a call wrote it."""
        match.index, match._data = index, data
        match._names = self._names.get(index) or self._names_of(index, data)
        return match

    def _names_of(self, index: int, data: bytes) -> Names:
        """The components and the names of the groups of a match, as a call wrote it."""
        _, count = SIZES.unpack_from(data)
        spans = SPAN.iter_unpack(data[SIZES.size : SIZES.size + count * SPAN.size])
        groups = ((component, group) for component, _, group, _, _ in spans)
        names = self._names[index] = Names([self._name(index, *group) for group in groups])
        return names

    def _name(self, index: int, component: int, group: int) -> Tuple[str, str]:
        """The component and the name of a group. Each match of a pattern has the same groups."""
        arguments = SIZE[index], component, SIZE[group]
        status, name = written(self._group_name, self._address, *arguments)
        checked(status)
        return COMPONENTS[component], name

    def _made(
        self,
        function: Call,
        of: Tuple[Any, ...],
        groups: Iterable[Tuple[str, str, Optional[str]]],
    ) -> Tuple[int, str]:
        """The status of what is made of groups, and the text. ValueError: it is refused."""
        text, given = group_texts(groups)
        arguments = text, SIZE[len(text)], ctypes.byref(given), SIZE[len(given)]
        status, made = written(function, self._address, *of, *arguments)
        if status == REFUSED:
            raise ValueError(made)
        checked(status)
        return status, made


class Patterns(Handled):
    """Patterns of a handle, which is theirs alone."""

    __slots__ = ("_sources",)

    _functions = address("test"), address("captures"), address("first_captures"), 0

    def __init__(self) -> None:
        super().__init__(Handle())
        self._sources: List[Source] = []

    def _add(self, source: Source) -> None:
        """Compiles a source, and appends the pattern."""
        add = calls.add_init if isinstance(source.pattern, dict) else calls.add
        texts = source.texts()
        with LOCK:
            status = add(self._address, *texts, source.ignore_case)
            if status == DONE:
                self._sources.append(source)
        if status == REFUSED:
            raise refusal(source)
        checked(status)

    def first(
        self, url: Optional[Input] = None, base: Optional[str] = None, *, path: Optional[str] = None
    ) -> Optional[Match]:
        """The match of the first pattern that matches, with its `index`, or None.

        >>> routes = URLPatternList(["https://example.com/users/:id", "https://example.com/*"])
        >>> routes.first("https://example.com/users/7").index
        0
        >>> match = routes.first(path="/users/8", base="https://example.com")
        >>> if match:
        ...     match.index, match["id"]
        (0, '8')
        """
        found: Any = None
        if path is None and self._bound is not None:
            found = _quick_first(self._bound, 0, url, "" if base is None else base)
        if found is None and base is None and path is None:
            # (as there, with fewer calls)
            try:
                text = encode(url)
                length, room = SMALL[len(text)], take()
            except (TypeError, IndexError):
                pass
            else:
                status = _first_captures(
                    self._address, text, length, NO_TEXT, NONE,
                    room.for_number, room.text, room.room, room.spans, room.count, room.sizes,
                )
                if status == DONE:
                    found = room.number.value, room.copied()
                elif status < TOO_LONG:
                    found = False
                put(room)
        if found is None:
            return self._first(url, base, path)
        if found is False:
            return None
        index, data = found
        return self._found(_new(Match), index, data)

    def _first(
        self, url: Optional[Input], base: Optional[str], path: Optional[str]
    ) -> Optional[Match]:
        """The match of the first pattern that matches, or None."""
        if _is_init(url):
            call, texts = calls.first_captures_of_init, init_text(url, base, path)
        else:
            call, texts = _first_captures, url_texts(url, base, path)
        status, room = first_matched(call, self._address, *texts)
        if status == DONE:
            return self._found(_new(Match), room.number.value, room.taken())
        room.leave()
        if status != NO_PATTERN:
            checked(status)
        return None

    def first_captures(
        self, url: Optional[Input] = None, base: Optional[str] = None, *, path: Optional[str] = None
    ) -> Optional[Tuple[int, Groups]]:
        """The index and the groups of the match that `first` returns."""
        match = self.first(url, base, path=path)
        return None if match is None else (match.index, match.groups)

    def test(
        self,
        index: int,
        url: Optional[Input] = None,
        base: Optional[str] = None,
        *,
        path: Optional[str] = None,
    ) -> bool:
        """Whether the pattern of this index matches. This call and those below, with an index, are
        those of URLPattern, without an object for the pattern."""
        if _is_init(url):
            return self.captures(index, url, base, path=path) is not None
        return checked(_test(self._address, SIZE[index], *url_texts(url, base, path)))

    def mismatch(
        self,
        index: int,
        url: Optional[str] = None,
        base: Optional[str] = None,
        *,
        path: Optional[str] = None,
    ) -> Optional[str]:
        """The first component that the pattern of this index does not match, or None if it matches.
        ValueError: the text is no URL."""
        component = ctypes.c_uint32()
        texts = url_texts(url, base, path)
        status = calls.mismatch(self._address, SIZE[index], *texts, ctypes.byref(component))
        if status == NO_URL:
            raise ValueError("not a URL")
        return None if checked(status) else COMPONENTS[component.value]

    def exec(
        self,
        index: int,
        url: Optional[Input] = None,
        base: Optional[str] = None,
        *,
        path: Optional[str] = None,
    ) -> Optional[Dict[str, Any]]:
        """The match of the pattern of this index, or None: a dict of components, each with `input`
        and `groups`."""
        if _is_init(url):
            call, texts = calls.exec_of_init, init_text(url, base, path)
        else:
            call, texts = _exec, url_texts(url, base, path)
        status, text = written(call, self._address, SIZE[index], *texts)
        return cast(Dict[str, Any], json.loads(text)) if checked(status) else None

    def captures(
        self,
        index: int,
        url: Optional[Input] = None,
        base: Optional[str] = None,
        *,
        path: Optional[str] = None,
    ) -> Optional[Groups]:
        """The groups of the match of the pattern of this index, or None: a list of tuples of the
        component, the name, and what the group captured, which is None where it took no part. They
        are in the order of the pattern, component by component."""
        match = self._match(index, url, base, path)
        return None if match is None else match.groups

    def _match(
        self, index: int, url: Optional[Input], base: Optional[str], path: Optional[str]
    ) -> Optional[Match]:
        """The match of the pattern of this index, or None."""
        if _is_init(url):
            call, texts = calls.captures_of_init, init_text(url, base, path)
        else:
            call, texts = _captures, url_texts(url, base, path)
        status, room = matched(call, self._address, SIZE[index], *texts)
        if status == DONE:
            return self._found(_new(Match), index, room.taken())
        room.leave()
        checked(status)
        return None

    def link(self, index: int, groups: Iterable[Tuple[str, str, Optional[str]]]) -> str:
        """The URL that the pattern of this index matches with these groups, each a tuple of the
        component, the name and the text, as `captures` gives them; one whose text is None takes no
        part. A match of the URL captures the canonical forms of the texts. ValueError: there is no
        such URL, and the message says why."""
        return self._made(calls.link, (SIZE[index],), groups)[1]

    def generate(
        self, index: int, component: str, groups: Iterable[Tuple[str, str, Optional[str]]]
    ) -> str:
        """The text of a component that the pattern of this index matches with these groups, as
        `link` has a whole URL. Groups of other components are passed over. ValueError: there is no
        such text, and the message says why."""
        return self._made(calls.generate, (SIZE[index], number_of(component)), groups)[1]

    def covers(self, index: int, asked: int) -> Optional[bool]:
        """Whether the pattern of this index matches each URL that the pattern of the asked index
        matches, or None if it is not known."""
        return covers(calls.covers_within, self._address, SIZE[index], SIZE[asked])

    def covering_reason(self, index: int, asked: int) -> Optional[str]:
        """Why it is not known whether the pattern of this index covers the one of the asked index,
        as `covering_reason` of URLPattern has it."""
        both = self._address, SIZE[index], SIZE[asked]
        return covering_reason(calls.covering_reason_within, *both)

    def counterexample(self, index: int, asked: int) -> Optional[Dict[str, str]]:
        """Texts that the pattern of the asked index matches and the one of this index does not, as
        `counterexample` of URLPattern has them."""
        both = self._address, SIZE[index], SIZE[asked]
        return counterexample(calls.counterexample_within, *both)

    def overlaps(self, index: int, other: int) -> Optional[bool]:
        """Whether there are texts that the patterns of both indices match, or None if it is not
        known."""
        return overlaps(calls.overlaps_within, self._address, SIZE[index], SIZE[other])

    def is_same(self, index: int, other: int) -> bool:
        """Whether the patterns of two indices are the same, as `==` of URLPattern says."""
        return checked(calls.is_same_within(self._address, SIZE[index], SIZE[other]))

    def text(self, index: int) -> Optional[str]:
        """The pattern of this index as one text, a constructor string, or None if it has none."""
        status, text = written(calls.text, self._address, SIZE[index])
        return text if checked(status) else None

    def component(self, index: int, name: str) -> str:
        """The pattern text of a component."""
        status, text = written(calls.component, self._address, SIZE[index], number_of(name))
        checked(status)
        return text

    def has_regexp_groups(self, index: int) -> bool:
        """Whether the pattern of this index has a custom regular expression."""
        return checked(calls.has_regexp_groups(self._address, SIZE[index]))

    def has_meaning(self, index: int) -> bool:
        """Whether each component of the pattern of this index has a meaning, as `has_meaning` of
        URLPattern says."""
        return checked(calls.has_meaning(self._address, SIZE[index]))
