"""The functions of the library by ctypes, and the memory that a call has."""
from __future__ import annotations

import ctypes
import operator
import os
import struct
import sys
import threading
from types import SimpleNamespace
from typing import Any, Callable, Dict, List, Optional, Sequence, Tuple

COMPONENTS = ("protocol", "username", "password", "hostname", "port", "pathname", "search", "hash")

NO_MATCH, DONE, NO_URL, NO_PATH, TOO_LONG, NOT_UTF8 = range(6)
REFUSED, OUT_OF_MEMORY, NO_PATTERN, TOO_SMALL, UNKNOWN, SHARED, NOT_ALLOWED = range(6, 13)
NAME_TAKEN, NOT_A_METHOD = 14, 15

# Why it is not known whether a pattern covers another one.
REASONS = {1: "custom expression", 2: "ignored case", 3: "too many steps", 4: "no parts"}

# What policies decide, apart from what their rules or the default do.
ALLOW = 1
DECISIONS = {
    2: "not a URL", 4: "too long", 5: "not UTF-8", 7: "out of memory", 13: "credentials",
}

# The source of static routes that is a cache with a name.
NAMED_CACHE = 4

# What is written in place of an index where no rule decides.
NO_RULE = ctypes.c_size_t(-1).value

# The version of the interface whose statuses these are.
VERSION = 2

# How many bytes the text of a match is first given room for, and how many spans: in all less than
# 1,000 bytes, which take no longer to copy than a few.
ROOM = 512
SPANS = 14

# For how many bytes memory has room at most that is kept for later calls, and how much is kept from
# the start. (Of a list that is never empty, Python changes no room with each call.)
KEPT = 1 << 16
KEPT_AT_FIRST = 4

# How many numbers are made arguments once.
NUMBERS = 1024

# A call, which returns a status or a number.
Call = Callable[..., int]


def _open() -> ctypes.CDLL:
    """The shared object. The interpreter's lock is held during each call. ImportError: it is of
    another version."""
    beside = os.path.join(os.path.dirname(os.path.abspath(__file__)), "liburlpattern.so")
    library = ctypes.PyDLL(os.environ.get("URLPATTERN_LIBRARY") or beside)
    version: int = library.urlpattern_version()
    if version // 1000 != VERSION:
        raise ImportError(f"the shared object has version {version // 1000}, not {VERSION}")
    return library


_library = _open()

# Whether the interpreter has a lock, which keeps calls apart.
_HAS_LOCK = getattr(sys, "_is_gil_enabled", lambda: True)()


def _extension() -> Any:
    """The calls that take less time than by ctypes. Each is None, so that all go by ctypes, where
    they were not built, and without what they need: Python 3.10, and the lock."""
    if _HAS_LOCK and sys.version_info >= (3, 10):
        try:
            from . import _quick

            return _quick
        except ImportError:
            pass
    return SimpleNamespace(bind=None, test=None, captures=None, first=None, allows=None)


quick: Any = _extension()

# What keeps calls apart where the interpreter has no lock, and what appends apart anywhere. No fork
# comes in between: the child of one would wait for a thread that it does not have.
LOCK = threading.RLock()
os.register_at_fork(
    before=LOCK.acquire, after_in_parent=LOCK.release, after_in_child=LOCK.release
)


def _function(
    name: str, arguments: Optional[Sequence[Any]] = None, result: Any = ctypes.c_uint32
) -> Call:
    """A function of the library. Without types its arguments have to have those of C: to convert
    them takes longer than to match."""
    function = getattr(_library, f"urlpattern_{name}")
    function.argtypes, function.restype = arguments, result
    if _HAS_LOCK:
        called: Call = function
        return called

    def alone(*given: Any, lock: Any = LOCK) -> int:
        with lock:
            status: int = function(*given)
            return status

    return alone


class _Handle(ctypes.Structure):
    _fields_ = [("made_by", ctypes.c_uint32), ("at", ctypes.c_void_p)]


class Handle(_Handle):
    """Patterns of the library. They are freed when nothing refers to this object any more."""

    def __del__(
        self, free: Call = _function("free", result=None), address: Any = ctypes.byref
    ) -> None:
        free(address(self))


class RouterHandle(_Handle):
    """Routes of the library. They are freed when nothing refers to this object any more."""

    def __del__(
        self, free: Call = _function("router_free", result=None), address: Any = ctypes.byref
    ) -> None:
        free(address(self))


class PolicyHandle(_Handle):
    """A policy of the library. It is freed when nothing refers to this object any more."""

    def __del__(
        self, free: Call = _function("policy_free", result=None), address: Any = ctypes.byref
    ) -> None:
        free(address(self))


class StaticRoutesHandle(_Handle):
    """Static routes of the library. They are freed when nothing refers to this object any more."""

    def __del__(
        self, free: Call = _function("static_routes_free", result=None), address: Any = ctypes.byref
    ) -> None:
        free(address(self))


def address(name: str) -> int:
    """The address of a function of the library."""
    function = getattr(_library, f"urlpattern_{name}")
    return ctypes.cast(function, ctypes.c_void_p).value or 0


def bound(handle: Any, functions: Sequence[int]) -> Any:
    """A handle as the calls of the extension take it, with the addresses of functions, or None
    without the extension."""
    return quick.bind and quick.bind(handle, ctypes.addressof(handle), *functions)


class Place(ctypes.Structure):
    """The part of a text that is at fault."""

    _fields_ = [("subject", ctypes.c_uint32), ("start", ctypes.c_size_t), ("end", ctypes.c_size_t)]


class RouteFaultPlace(ctypes.Structure):
    """The rule and the member that are at fault, why, and the part of a pattern that is."""

    _fields_ = [
        ("rule", ctypes.c_size_t),
        ("member", ctypes.c_uint32),
        ("reason", ctypes.c_uint32),
        ("place", Place),
    ]


class Given(ctypes.Structure):
    """What is given for a group."""

    _fields_ = [
        ("component", ctypes.c_uint32),
        ("name_start", ctypes.c_size_t),
        ("name_length", ctypes.c_size_t),
        ("start", ctypes.c_size_t),
        ("length", ctypes.c_size_t),
    ]


# How much a match takes, as the header declares it: how many bytes its text has, and how many spans
# there are.
SIZES = struct.Struct("@NN")

# A span, as the header declares it: the component, whether the group took part, its number, and
# where its text begins and how long it is.
SPAN = struct.Struct("@IINNN")


def _declared() -> Any:
    """The functions that are called by name."""
    handle, text, size = ctypes.POINTER(Handle), ctypes.c_char_p, ctypes.c_size_t
    ignores, string, init = ctypes.c_bool, [text, size, text, size], [text, size]
    reason = [text, size, ctypes.POINTER(size), ctypes.POINTER(Place)]
    matching = ("test", "mismatch", "captures", "first_captures")
    of_init = ("captures_of_init", "first_captures_of_init")
    writing = ("exec", "exec_of_init", "link", "generate", "group_name", "component", "text")
    telling = ("has_regexp_groups", "has_meaning", "reach_of_each")
    routing = ("at", "at_url", "allowed", "allowed_at_url", "link", "group_name")
    router = [f"router_{name}" for name in routing]
    named = [ctypes.POINTER(RouterHandle), *init, *init]
    policy = ctypes.POINTER(PolicyHandle)
    static = ("fault", "text_at_fault", "decide", "source")
    routes = ctypes.POINTER(StaticRoutesHandle)
    pairs = ("covers", "covering_reason", "counterexample", "overlaps", "is_same")
    comparing = [f"{name}_{which}" for name in pairs for which in ("within", "between")]
    return SimpleNamespace(
        **{name: _function(name) for name in (*matching, *of_init, *writing, *telling, *comparing)},
        **{name: _function(name) for name in router},
        **{f"static_routes_{name}": _function(f"static_routes_{name}") for name in static},
        static_routes_read=_function("static_routes_read", [routes, *string, ignores]),
        add=_function("add", [handle, *string, ignores]),
        add_init=_function("add_init", [handle, *init, ignores]),
        policy_add=_function("policy_add", [policy, ignores, *string, ignores]),
        policy_add_init=_function("policy_add_init", [policy, ignores, *init, ignores]),
        policy_set_options=_function("policy_set_options", [policy, ignores, ignores, ignores]),
        policy_decide=_function("policy_decide"),
        router_insert=_function("router_insert", [*named, *string, ignores]),
        router_insert_init=_function("router_insert_init", [*named, *init, ignores]),
        diagnose=_function("diagnose", [*string, ignores, *reason]),
        diagnose_init=_function("diagnose_init", [*init, ignores, *reason]),
        version=_function("version", []),
    )


calls: Any = _declared()


class _Numbers(Dict[int, Any]):
    """Numbers as arguments of C's type `size_t`, and the largest of those for any other number."""

    LARGEST = ctypes.c_size_t(-1).value

    def __missing__(self, number: int) -> Any:
        number = operator.index(number)
        within = number if 0 <= number <= self.LARGEST else self.LARGEST
        made = ctypes.c_size_t.from_param(within)
        if within < NUMBERS:
            self[within] = made
        return made


SIZE = _Numbers()
NONE = SIZE[0]
NO_TEXT = ctypes.c_char_p.from_param(b"")

# The arguments for small numbers by themselves, which Python finds in less time.
SMALL = tuple(SIZE[number] for number in range(NUMBERS))


def start_of_text(spans: int) -> int:
    """Where the text of a match begins that has so many spans, as `Memory.copied` has them."""
    return SIZES.size + max(spans, SPANS) * SPAN.size


class Memory:
    """Memory that one call has, with the arguments for it: for the sizes of a match, its spans and
    its text, one after the other; or for another text alone; and for a number."""

    __slots__ = (
        *("bytes", "number", "is_usual", "is_kept", "_start", "for_number", "for_text"),
        *("text", "room", "spans", "count", "sizes"),
    )

    def __init__(self, room: int = ROOM, count: int = SPANS) -> None:
        self._start = start_of_text(count)
        self.bytes: Any = (ctypes.c_char * (self._start + room))()
        self.number = ctypes.c_size_t()
        self.is_usual = (room, count) == (ROOM, SPANS)
        self.is_kept = len(self.bytes) <= KEPT
        self.for_number, self.sizes = ctypes.byref(self.number), ctypes.byref(self.bytes)
        self.for_text = self.sizes, SIZE[len(self.bytes)], self.for_number
        self.spans, self.count = ctypes.byref(self.bytes, SIZES.size), SIZE[count]
        self.text, self.room = ctypes.byref(self.bytes, self._start), SIZE[room]

    def leave(self) -> None:
        """Leaves the memory to later calls."""
        if self.is_kept:
            put(self)

    def larger(self) -> Memory:
        """Memory with the room that a match needs, as the call says that had this one."""
        length, count = SIZES.unpack_from(self.bytes)
        return Memory(max(length, ROOM), max(count, SPANS))

    def copied(self) -> bytes:
        """The sizes, the spans and the text of a match, each at one place whichever room it had.
        What an earlier call left after them may follow."""
        if self.is_usual:
            usual: bytes = self.bytes.raw
            return usual
        length, count = SIZES.unpack_from(self.bytes)
        text: bytes = self.bytes[self._start : self._start + length]
        spans: bytes = self.bytes[: start_of_text(count)]
        return spans + text

    def taken(self) -> bytes:
        """As `copied` has it, and leaves the memory to later calls."""
        data = self.copied()
        self.leave()
        return data


# Memory that no call has; what takes some out, with an IndexError if there is none; and what puts
# some back. (Calls take less time by these names than by methods of a name that is imported.)
FREE = [Memory() for _ in range(KEPT_AT_FIRST)]
take, put = FREE.pop, FREE.append


def memory() -> Memory:
    """Memory that no other call has."""
    try:
        return take()
    except IndexError:
        return Memory()


def checked(status: int) -> bool:
    """Whether there is a match."""
    if status == DONE:
        return True
    if status == OUT_OF_MEMORY:
        raise MemoryError("out of memory")
    if status == NO_PATTERN:
        raise IndexError("no such pattern")
    if status == TOO_LONG:
        raise ValueError("a URL or a base URL has 16 MB or more")
    return False


def written(function: Call, *arguments: Any, after: Tuple[Any, ...] = ()) -> Tuple[int, str]:
    """Calls what writes a text, with as much room as it needs, and with arguments after that.
    Returns the status and the text, which is empty if none is written."""
    room = memory()
    status = function(*arguments, *room.for_text, *after)
    while status == TOO_SMALL:
        room = Memory(room.number.value)
        status = function(*arguments, *room.for_text, *after)
    is_written = status == DONE or status == REFUSED
    text = room.bytes[: room.number.value].decode() if is_written else ""
    room.leave()
    return status, text


def matched(function: Call, *arguments: Any) -> Tuple[int, Memory]:
    """Calls what writes the groups of a match, with as much room as they need. Returns the status,
    and the memory that has them, which is to be left or read."""
    room = memory()
    while True:
        status = function(*arguments, room.text, room.room, room.spans, room.count, room.sizes)
        if status != TOO_SMALL:
            return status, room
        room = room.larger()


def first_matched(function: Call, *arguments: Any) -> Tuple[int, Memory]:
    """Calls what writes the index of a match and its groups, as `matched` does."""
    room = memory()
    while True:
        status = function(
            *arguments, room.for_number, room.text, room.room, room.spans, room.count, room.sizes
        )
        if status != TOO_SMALL:
            return status, room
        room = room.larger()


def decided(*arguments: Any) -> Tuple[int, int]:
    """What a policy decides, and the index of the rule that decides."""
    room = memory()
    number = calls.policy_decide(*arguments, room.for_number)
    index = room.number.value
    room.leave()
    return number, index
