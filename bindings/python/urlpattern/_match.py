"""The match of a pattern."""
from __future__ import annotations

import struct
from typing import Any, Dict, List, Optional, Tuple, Union, cast

from ._library import SIZES, SPAN, start_of_text
from ._texts import Groups

# Of a span, as the header declares it, whether the group took part, and where its text begins and
# how long it is.
_SPAN = "4xI8xNN"
_span = struct.Struct(f"@{_SPAN}").unpack_from


class Names:
    """The groups that each match of a pattern has, in their order: of each the component and the
    name. `places` has for each name where its span lies in what a call writes, or None for one that
    components have each; `spans` reads all of them; and `start` is where the text begins."""

    __slots__ = ("groups", "places", "spans", "start")

    def __init__(self, groups: List[Tuple[str, str]]) -> None:
        self.groups, self.start = groups, start_of_text(len(groups))
        self.spans = struct.Struct(f"@{_SPAN * len(groups)}").unpack_from
        self.places: Dict[str, Any] = {}
        for at, (_, name) in enumerate(groups):
            place = SIZES.size + at * SPAN.size
            self.places[name] = None if name in self.places else place


def groups_of(names: Names, data: bytes) -> Groups:
    """The groups of a match, as a call wrote it."""
    start, (size, _) = names.start, SIZES.unpack_from(data)
    text: Any = data[start : start + size]
    read, each = text.decode(), iter(names.spans(data, SIZES.size))
    is_ascii = len(read) == size
    text = read if is_ascii else text
    found = [
        (component, name, (text[at : at + length] if length else "") if took_part else None)
        for (component, name), took_part, at, length in zip(names.groups, each, each, each)
    ]
    if is_ascii:
        return found
    return [(component, name, it and it.decode()) for component, name, it in found]


def _groups_of(component: str) -> Dict[str, Union[str, Any]]:
    """An attribute of matches: the groups of a component."""
    found = lambda self: {name: text for at, name, text in self.groups if at == component}
    made = property(found, doc=f"What the groups of the {component} captured, by their names.")
    return cast(Dict[str, Union[str, Any]], made)


class Match:
    """A match: the `index` of the pattern in its list, and the `groups` as `captures` gives them.
    It is true, also where its index is 0.

    An attribute for each component is a dict of its groups. A group that has no name in the pattern
    has a number, and one that took no part is None. A name alone finds its group whichever
    component that is of.

    >>> pattern = URLPattern("https://:team.example.com/users/:id/*")
    >>> match = pattern.match("https://a.example.com/users/7/x")
    >>> match["id"], match.group("team"), match.groupdict()
    ('7', 'a', {'team': 'a', 'id': '7'})
    >>> match.pathname, match.index
    ({'id': '7', '0': 'x'}, 0)
    """

    __slots__ = ("index", "_names", "_data", "__weakref__")

    # What a call wrote, with its names; or the groups, once they are read.
    _names: Names
    _data: Union[bytes, Groups]

    def __init__(self, index: int, groups: Groups) -> None:
        self.index = index
        self._data = groups

    @property
    def groups(self) -> Groups:
        """The groups, as `captures` of URLPattern has them. They are read when they are first
        asked for.

        >>> URLPattern("https://example.com/:id").match("https://example.com/7").groups[2]
        ('pathname', 'id', '7')
        """
        data = self._data
        if isinstance(data, bytes):
            data = self._data = groups_of(self._names, data)
        return data

    def _content(self) -> Tuple[Any, ...]:
        """What equal matches have the same, and what a copy is made of."""
        return self.index, self.groups

    def __reduce__(self) -> Tuple[Any, ...]:
        return type(self), self._content()

    def __eq__(self, other: object) -> bool:
        if not isinstance(other, Match) or other.__class__ is not self.__class__:
            return NotImplemented
        return self._content() == other._content()

    __hash__ = None  # type: ignore[assignment]

    def __repr__(self) -> str:
        return f"{type(self).__name__}(index={self.index}, groups={self.groups})"

    protocol = _groups_of("protocol")
    username = _groups_of("username")
    password = _groups_of("password")
    hostname = _groups_of("hostname")
    port = _groups_of("port")
    pathname = _groups_of("pathname")
    search = _groups_of("search")
    hash = _groups_of("hash")

    def group(self, name: str) -> Union[str, Any]:
        """What the group of this name captured, or None if it took no part. IndexError: there is
        none, or components have one each.

        >>> match = URLPattern({"pathname": "/:lang/:page?"}).match("https://example.com/en")
        >>> match.group("lang"), match.group("page")
        ('en', None)
        """
        try:
            # (to read one group takes less time than to read all)
            data: Any = self._data
            names = self._names
            took_part, start, length = _span(data, names.places[name])
        except (AttributeError, KeyError, TypeError):
            # (all are read, or no group has the name, or two)
            pass
        else:
            start += names.start
            return data[start : start + length].decode() if took_part else None
        found = [(component, text) for component, each, text in self.groups if each == name]
        if len(found) == 1:
            return found[0][1]
        if not found:
            raise IndexError(f"no such group: {name!r}")
        components = " and ".join(component for component, _ in found)
        hint = f"ask one, as `match.{found[0][0]}[{name!r}]`"
        raise IndexError(f"{components} have a group {name!r} each: {hint}")

    def groupdict(self, default: Any = None) -> Dict[str, Union[str, Any]]:
        """The groups that have a name in the pattern, of all components: what they captured, or the
        default where they took no part. IndexError: two components have a group of one name.

        >>> match = URLPattern({"pathname": "/:lang/:page?"}).match("https://example.com/en")
        >>> match.groupdict("")
        {'lang': 'en', 'page': ''}
        """
        named = [(name, text) for _, name, text in self.groups if not name[0].isdecimal()]
        texts = {name: default if text is None else text for name, text in named}
        if len(texts) < len(named):
            for name in texts:
                self.group(name)
        return texts

    __getitem__ = group

    # Else Python would go through `match[0]`, `match[1]` and so on, and find none.
    __iter__ = None
