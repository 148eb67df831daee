"""Lists of patterns."""
from __future__ import annotations

import json
from typing import Any, Dict, Iterable, List, Mapping, Optional, Sequence, Union, cast, overload

from ._handled import Patterns
from ._library import NO_PATTERN, calls, checked, written
from ._pattern import URLPattern, source_of_pattern
from ._texts import Init, Source


class URLPatternList(Patterns, Sequence["URLPattern"]):
    """Patterns in their order, as the routes of a router: a sequence that grows at its end. A copy
    is compiled again.

    >>> routes = URLPatternList(["https://example.com/users/:id", "https://example.com/*"])
    >>> len(routes), routes[0].pathname, [route.pathname for route in routes]
    (2, '/users/:id', ['/users/:id', '/*'])
    >>> routes.index(URLPattern("https://example.com/*"))
    1
    """

    __slots__ = ("__dict__", "__weakref__")

    def __init__(self, patterns: Iterable[Union[str, Init, URLPattern]] = ()) -> None:
        if isinstance(patterns, (str, Mapping)):
            raise TypeError(f"patterns are a list of patterns, not a {type(patterns).__name__}")
        super().__init__()
        for pattern in patterns:
            self.append(pattern)

    def __getstate__(self) -> Any:
        return self.__dict__, [tuple(source) for source in self._sources]

    def __setstate__(self, state: Any) -> None:
        attributes, sources = state
        URLPatternList.__init__(self)
        self.__dict__.update(attributes)
        for source in sources:
            self._add(Source(*source))

    def append(
        self,
        pattern: Union[str, Init, URLPattern],
        base: Optional[str] = None,
        *,
        ignore_case: bool = False,
    ) -> None:
        """Compiles what a URLPattern is made of, and appends the pattern.

        >>> routes = URLPatternList()
        >>> routes.append("/users/:id", "https://example.com", ignore_case=True)
        >>> routes.append({"pathname": "/posts/:id", "port": 8080})
        >>> routes.append(URLPattern("https://example.com/*"))
        >>> [route.pathname for route in routes]
        ['/users/:id', '/posts/:id', '/*']
        """
        self._add(source_of_pattern(pattern, base, ignore_case))

    def reach_of_each(self) -> List[Union[Dict[str, str], List[int], None]]:
        """What is known of each pattern, in order: a dict of texts whose first match it is; or the
        indices of earlier patterns that cover it together, so that it is never the first match; or
        None if neither is known.

        >>> routes = URLPatternList(["https://example.com/*", "https://example.com/a"])
        >>> texts, covered_by = routes.reach_of_each()
        >>> routes.first(texts).index, covered_by
        (0, [0])
        """
        status, text = written(calls.reach_of_each, self._address)
        if status == NO_PATTERN:
            return []
        checked(status)
        return cast(List[Union[Dict[str, str], List[int], None]], json.loads(text))

    def __len__(self) -> int:
        return len(self._sources)

    @overload
    def __getitem__(self, index: int) -> URLPattern: ...

    @overload
    def __getitem__(self, index: slice) -> List[URLPattern]: ...

    def __getitem__(self, index: Union[int, slice]) -> Union[URLPattern, List[URLPattern]]:
        """The pattern of an index, which is not compiled again; or those of a slice."""
        found = range(len(self))[index]
        if isinstance(found, range):
            return [URLPattern._of(self, each) for each in found]
        return URLPattern._of(self, found)

    def __repr__(self) -> str:
        return f"{type(self).__name__}({list(self)!r})"
