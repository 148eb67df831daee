"""Texts that the library reads, of patterns, URLs and groups, and why a pattern is refused."""
from __future__ import annotations

import ctypes
import difflib
import json
from typing import Any, Dict, Iterable, List, Mapping, NamedTuple, Optional, Tuple, Union

from ._library import (
    COMPONENTS, DONE, NONE, NO_TEXT, NUMBERS, OUT_OF_MEMORY, ROOM, SIZE, SMALL, TOO_SMALL,
    Call, Given, Place, calls,
)

# The texts of components, with a base URL if there is one.
Init = Mapping[str, Union[str, int]]

# What is matched: a URL, or an init.
Input = Union[str, Init]

# The groups of a match: of each the component, the name, and what it captured.
Groups = List[Tuple[str, str, Optional[str]]]

# The keys of a dict, and what other libraries call them.
KEYS = (*COMPONENTS, "baseURL")
SYNONYMS = {"scheme": "protocol", "netloc": "hostname", "query": "search", "fragment": "hash"}

# The UTF-8 of a text, and of nothing else. (It takes less time by this name.)
encode: Any = str.encode

_NUMBERS = {name: number for number, name in enumerate(COMPONENTS)}


class URLPatternError(ValueError):
    """A pattern is refused. `place` is the span that is at fault, as indices of a str: of the
    pattern, or of the base URL if `in_base`, or of the text of `component` in a dict. It is None
    where nothing more is known.

    >>> try:
    ...     URLPattern("https://example.com/é(abc")
    ... except URLPatternError as error:
    ...     error.place, error.in_base, error.component
    ((21, 22), False, None)
    """

    def __init__(
        self,
        message: str,
        place: Optional[Tuple[int, int]] = None,
        in_base: bool = False,
        component: Optional[str] = None,
    ) -> None:
        super().__init__(message)
        self.place = place
        self.in_base = in_base
        self.component = component


class Source(NamedTuple):
    """What a pattern is compiled from."""

    pattern: Union[str, Dict[str, str]]
    base: Optional[str]
    ignore_case: bool

    def texts(self) -> Tuple[Any, ...]:
        """The texts, each with the number of its bytes."""
        if isinstance(self.pattern, dict):
            text = _json(self.pattern)
            return text, len(text)
        text, base = self.pattern.encode(), (self.base or "").encode()
        return text, len(text), base, len(base)


def _json(init: Dict[str, str]) -> bytes:
    return json.dumps(init, ensure_ascii=False).encode()


def encoded(text: Any, name: str, kind: str = "a str") -> bytes:
    """The UTF-8 of a text. TypeError: it is no str."""
    try:
        utf8: bytes = encode(text)
        return utf8
    except TypeError:
        raise TypeError(f"{name} is {kind}, not {type(text).__name__}") from None


def _plain(key: object) -> str:
    return str(key).replace("_", "").lower()


def _unknown(key: object) -> str:
    """What is said of a key that a pattern may not have."""
    names = {**SYNONYMS, **{_plain(name): name for name in KEYS}}
    near = difflib.get_close_matches(_plain(key), names, 1)
    hint = f"did you mean {names[near[0]]!r}?" if near else f"it may be {', '.join(KEYS)}"
    return f"unknown key {key!r} of a pattern: {hint}"


def source_of(pattern: Union[str, Init], base: Optional[str], ignore_case: bool) -> Source:
    """What a pattern is compiled from: a str or a dict, a base URL, and whether it ignores case."""
    if isinstance(pattern, Mapping):
        if base is not None:
            raise URLPatternError("the base URL of a dict is its `baseURL`")
        return Source(_init(pattern), None, bool(ignore_case))
    encoded(pattern, "a pattern", "a str or a dict")
    if base is not None:
        encoded(base, "a base URL")
    return Source(pattern, base, bool(ignore_case))


def _init(given: Init) -> Dict[str, str]:
    """The texts of a dict. A port may be a number."""
    texts = {}
    for key, text in given.items():
        if key not in KEYS:
            raise TypeError(_unknown(key))
        if key == "port" and isinstance(text, int) and not isinstance(text, bool):
            text = str(int(text))
        texts[key] = encoded(text, f"{key!r} of a pattern").decode()
    return texts


def init_text(init: Any, base: Optional[str], path: Optional[str]) -> Tuple[Any, ...]:
    """A dict that is matched, with the number of its bytes, as arguments."""
    if base is not None or path is not None:
        raise TypeError("the base URL of a dict is its `baseURL`, and its path its `pathname`")
    text = _json(_init(init))
    return text, SIZE[len(text)]


def url_texts(url: Any, base: Optional[str], path: Optional[str]) -> Tuple[Any, ...]:
    """A URL and its base, each with the number of its bytes, as arguments."""
    if path is not None:
        text = _within(url, base, path)
    else:
        # (most are a str, and a call takes longer than this)
        text = url.encode() if type(url) is str else encoded(url, "a URL")
    size = len(text)
    length = SMALL[size] if size < NUMBERS else SIZE[size]
    if base is None:
        return text, length, NO_TEXT, NONE
    base_text = base.encode() if type(base) is str else encoded(base, "a base URL")
    size = len(base_text)
    return text, length, base_text, SMALL[size] if size < NUMBERS else SIZE[size]


def _within(url: Any, base: Optional[str], path: str) -> bytes:
    """A path as a text that has the host of its base. No host begins at `/.`, as one does at `//`,
    and the URL is without this segment."""
    if url is not None or base is None:
        raise TypeError("a path needs a base URL and no other one: `path='/x', base='https://..'`")
    text = encoded(path, "a path")
    if not text.startswith(b"/"):
        raise ValueError(f"a path begins with `/`, unlike {path[:40]!r}")
    return b"/." + text


def number_of(component: str) -> int:
    """The number of a component."""
    try:
        return _NUMBERS[component]
    except KeyError:
        encoded(component, "a component")
        raise ValueError(f"no component {component!r}: it may be {', '.join(COMPONENTS)}") from None


def group_texts(groups: Iterable[Tuple[str, str, Optional[str]]]) -> Tuple[bytes, Any]:
    """The names and texts of groups, one after the other, and where each of them lies."""
    text = b""
    given: List[Any] = []
    for component, name, value in groups:
        number, name_text = number_of(component), encoded(name, "the name of a group")
        if value is not None:
            value_text, start = encoded(value, "the text of a group"), len(text) + len(name_text)
            given.append((number, len(text), len(name_text), start, len(value_text)))
            text += name_text + value_text
    return text, (Given * len(given))(*given)


def _diagnosed(function: Call, arguments: Tuple[Any, ...]) -> Tuple[int, str, Any]:
    """The status of a diagnosis, its reason, and the place that is at fault."""
    needed, place, room = ctypes.c_size_t(), Place(), ROOM
    while True:
        text = ctypes.create_string_buffer(room)
        status = function(*arguments, text, room, ctypes.byref(needed), ctypes.byref(place))
        if status != TOO_SMALL:
            return status, text.raw[: needed.value].decode(), place
        room = needed.value


def refusal(source: Source) -> Exception:
    """The error that says why a pattern is refused."""
    pattern, base = source.pattern, source.base
    function = calls.diagnose_init if isinstance(pattern, dict) else calls.diagnose
    status, reason, place = _diagnosed(function, (*source.texts(), source.ignore_case))
    if status == OUT_OF_MEMORY:
        return MemoryError("out of memory")
    if status != DONE:
        return URLPatternError("the base URL is refused", in_base=True)
    in_base = place.subject == 1
    component = COMPONENTS[place.subject - 2] if place.subject > 1 else None
    text: Optional[str] = base if in_base else None
    if isinstance(pattern, dict):
        text = pattern.get("baseURL" if in_base else component or "")
    elif not in_base:
        text = pattern
    return URLPatternError(reason, indices(text, place), in_base, component)


def indices(text: Optional[str], place: Any) -> Optional[Tuple[int, int]]:
    """A place as indices of its text, if there is one."""
    if text is None:
        return None
    data = text.encode()
    start, end = (len(data[:at].decode(errors="ignore")) for at in (place.start, place.end))
    return start, end
