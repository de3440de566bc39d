"""Softlode: proved access hours of an archive's volunteers, for hosts in Python.

It calls the proved library, libsoftlode.so.1, by ctypes, and needs Python 3.8 or later and its standard library
alone. Every answer is the library's. In the folder with Softlode's data:

    >>> import pathlib, softlode
    >>> rota = softlode.Rota(pathlib.Path("week.rota").read_bytes())
    >>> table = rota.table()
    >>> service = softlode.Service()
    >>> service.advance(table, softlode.minute(2024, 2, 26, 9, 0))
    0
    >>> service.open(table, 0)
    >>> service.ask(table, 0, 4)
    Yes(role=2)
    >>> print(softlode.date(service.now))
    Mon 2024-02-26 09:00

A question is answered by Yes with the lowest role, or by None for no. Yes is true, also for role 0, so that
`if answer:` and `if answer is not None:` are both right:

    >>> if rota.may(0, 0, service.now):
    ...     print("volunteer 0 may read a record")
    volunteer 0 may read a record
    >>> rota.may(0, 0, service.now).role
    0

When can volunteer 5 next discard a record, which is right 8, and what may everyone use then? A Use is true too,
also of minute 0.

    >>> use = table.next_use(5, 8, service.now)
    >>> print(softlode.date(use.minute))
    Sun 2024-03-03 14:00
    >>> board = table.board(use.minute)
    >>> board.may(5, 8), board.may(0, 8), sorted(board.rights_of(5))
    (True, False, [8])

A page greys out its buttons, and two coordinators' rotas are compared once they are tidy:

    >>> [bool(answer) for answer in table.page([(5, right, use.minute) for right in (6, 8)])]
    [False, True]
    >>> rota.tidy().format
    3

A refusal is an exception, with its number and a text:

    >>> try:
    ...     softlode.Rota(b"not a rota")
    ... except softlode.Refusal as refusal:
    ...     print(refusal, refusal.number == softlode.Reason.ROTA_SHORT)
    refused 1: the rota is shorter than its header True

Numbers. Volunteers, rights, roles and minutes are numbered from 0. Any int may be passed. One that is not there is
refused by the library with 33, 34, 35 or 50, and so is one below 0 or of more than 32 bits: it is never cut off, by
which 2**32 would be volunteer 0. What is no int, and True and False, are a TypeError.

The clock. Minutes are those of one clock without summer time, from 2001 to 2400, and nothing here reads a clock. A
host whose archive is an hour ahead of UTC in winter keeps that time all the year:

    >>> from datetime import datetime, timedelta, timezone
    >>> standard = timezone(timedelta(hours=1))
    >>> now = softlode.from_datetime(datetime.now(standard).replace(tzinfo=None))

Threads. A Rota, a Table and all answers never change, and may be used by any threads at the same time. Calls on one
Service wait for each other. Other Python threads run during a call. Rota.table and Rota.table_size take up to 1 MiB of
stack, which a thread has unless threading.stack_size made it smaller: give such threads 2 MiB, since a stack that is
used up ends the process.

The library is looked for, in this order: the file that the environment variable SOFTLODE_LIBRARY names; where `make
install` puts it, as seen from this file; where `make` builds it, as seen from this file; the system's loader. LIBRARY
is the one that was loaded.
"""

from __future__ import annotations

import ctypes
import dataclasses
import datetime as _datetime
import enum
import itertools
import operator
import os
import threading
from ctypes import POINTER, c_char, c_char_p, c_size_t, c_uint32, c_uint64
from typing import Any, ClassVar, Dict, FrozenSet, Iterable, List, NamedTuple, NoReturn, Optional, Sequence, Tuple
from typing import Union, overload

__all__ = [
    "Board", "DateTime", "Page", "Reason", "Refusal", "Rota", "Service", "Table", "TableSize", "Use", "Yes",
    "date", "from_datetime", "minute", "text", "to_datetime", "version",
    "ENOUGH_AREA", "LARGEST_ROTA", "LAST_MINUTE", "LIBRARY", "MOST_QUESTIONS", "VERSION",
]

VERSION = 1000000
"""The version of the library that this module was written for: 1002003 is 1.2.3."""
LARGEST_ROTA = 4460
"""No rota of more bytes is accepted."""
ENOUGH_AREA = 35212336
"""No table has more bytes."""
LAST_MINUTE = 210379679
"""23:59 on Sunday 31 December 2400. Minute 0 is 00:00 on Monday 1 January 2001."""
MOST_QUESTIONS = 256
"""The most questions on a page."""


class Reason(enum.IntEnum):
    """The numbers of refusals, by the header's names; text() says what each means."""

    ROTA_SHORT = 1
    ROTA_FORMAT = 2
    ROTA_CYCLE = 3
    ROTA_COUNTS = 4
    HOURS_CUT = 5
    HOURS_SPAN = 6
    HOURS_PAIRS = 7
    HOURS_PAIR = 8
    ROTA_LENGTH = 9
    ROLE_HOURS = 10
    VOLUNTEER_ROW = 11
    RIGHT_ROW = 12
    AREA_TOO_SMALL = 20
    TABLE_SHORT = 21
    TABLE_FORMAT = 22
    TABLE_CYCLE = 23
    TABLE_COUNTS = 24
    TABLE_LENGTH = 25
    TABLE_ENTRY = 26
    TABLE_ROW = 27
    TABLE_ORDER = 28
    NO_SUCH_MINUTE = 33
    NO_SUCH_VOLUNTEER = 34
    NO_SUCH_RIGHT = 35
    RECORD_UNFIT = 40
    BEFORE_NOW = 41
    ALREADY_OPEN = 42
    NO_RIGHT_NOW = 43
    NOT_OPEN = 44
    NO_SUCH_DATE = 50
    PAGE_TOO_LONG = 51
    ROTA_ORDER = 52


# The header's structs and functions. The tests hold them to include/softlode.h.


def _struct(name: str, numbers: str, *others: Tuple[str, Any]) -> Any:
    """A struct of 32-bit numbers, and then of other fields."""
    fields = [(field, c_uint32) for field in numbers.split()]
    return type(name, (ctypes.Structure,), {"_fields_": [*fields, *others]})


_rota = _struct("softlode_rota", "refusal cycle hours volunteers rights roles volunteer_rows right_rows format")
_table = _struct("softlode_table", "refusal cycle volunteers rights roles derived rows")
_tidied = _struct("softlode_tidied", "refusal", ("length", c_uint64))
_written = _struct("softlode_written", "refusal derived rows", ("length", c_uint64))
_told = _struct("softlode_told", "refusal yes value")
_next = _struct("softlode_next", "refusal found minute")
_board = _struct("softlode_board", "refusal rows", ("rights", c_uint64 * 64))
_place = _struct("softlode_place", "refusal yes role")
_question = _struct("softlode_question", "volunteer right minute", ("answer", _place))
_service = _struct("softlode_service", "now", ("open", c_uint64))
_date_time = _struct("softlode_date_time", "refusal year month day weekday hour minute")
_minute_number = _struct("softlode_minute_number", "refusal minute")

# Bytes are lent as they are, without a copy, for the time of the call.
_LENT = [c_char_p, c_size_t]
_AREA = [POINTER(c_char), c_size_t]
_SERVICE = [POINTER(_service)]

# By name: what it gives, and what it takes.
_FUNCTIONS: Dict[str, Tuple[Any, list]] = {
    "softlode_version": (c_uint32, []),
    "softlode_rota_read": (_rota, _LENT),
    "softlode_rota_tidy": (_tidied, _LENT + _AREA),
    "softlode_table_read": (_table, _LENT),
    "softlode_table_next": (_next, _LENT + [c_uint32] * 3),
    "softlode_table_board": (_board, _LENT + [c_uint32]),
    "softlode_rewrite": (_written, _LENT + _AREA),
    "softlode_rewrite_size": (_written, _LENT),
    "softlode_date": (_date_time, [c_uint32]),
    "softlode_minute": (_minute_number, [c_uint32] * 5),
    "softlode_text": (c_char_p, [c_uint32]),
}
for _kind in ("rota", "table"):
    _FUNCTIONS[f"softlode_{_kind}_question"] = (_told, _LENT + [c_uint32] * 3)
    _FUNCTIONS[f"softlode_{_kind}_page"] = (c_uint32, [POINTER(_question), c_size_t] + _LENT)
    _FUNCTIONS[f"softlode_{_kind}_ask"] = (_told, _SERVICE + _LENT + [c_uint32] * 2)
    for _call in ("advance", "open", "close"):
        _FUNCTIONS[f"softlode_{_kind}_{_call}"] = (_told, _SERVICE + _LENT + [c_uint32])

_NAME = f"libsoftlode.so.{VERSION // 1000000}"
_VARIABLE = "SOFTLODE_LIBRARY"


def _places() -> List[str]:
    """Where the library may be, as seen from this file: installed with it, or built in its repository."""
    folder = os.path.dirname(os.path.realpath(__file__))
    places = [os.path.join(os.path.dirname(folder), "target", "lib", _NAME)]
    installed = os.path.join(os.sep, "share", "softlode", "python")
    if folder.endswith(installed):
        places.insert(0, os.path.join(folder[: -len(installed)] or os.sep, "lib", _NAME))
    return places


def _find() -> str:
    """Which library to load: a file, or a name for the system's loader."""
    chosen = os.environ.get(_VARIABLE)
    if chosen:
        return os.path.abspath(chosen)
    return next(filter(os.path.exists, _places()), _NAME)


def _fail(why: str) -> NoReturn:
    looked = f"{', '.join(_places())}, then {_NAME} by the system's loader"
    if os.environ.get(_VARIABLE):
        looked = f"the file that {_VARIABLE} names"
    raise ImportError(
        f"softlode: {why}. It looked for {looked}. Run `make` in Softlode's repository, or `make install PREFIX=...` "
        f"there, or let the environment variable {_VARIABLE} name the library's file."
    ) from None


def _bind(library: ctypes.CDLL, name: str) -> Any:
    """Declares a function."""
    try:
        function = getattr(library, name)
    except AttributeError:
        _fail(f"{LIBRARY} has no function {name}")
    function.restype, function.argtypes = _FUNCTIONS[name]
    return function


def _parts(number: int) -> Tuple[int, int, int]:
    return number // 1000000, number // 1000 % 1000, number % 1000


def _load() -> ctypes.CDLL:
    """The library, whose version fits, with all functions declared; else an ImportError."""
    try:
        library = ctypes.CDLL(LIBRARY)
    except OSError as error:
        _fail(f"cannot load {LIBRARY}: {error}")
    found = _bind(library, "softlode_version")()
    if found // 1000000 != VERSION // 1000000 or found < VERSION:
        wanted, got = (".".join(map(str, _parts(number))) for number in (VERSION, found))
        _fail(f"{LIBRARY} has version {got}, and {wanted} or a later one of the same major version is needed")
    for name in _FUNCTIONS:
        _bind(library, name)
    return library


LIBRARY: str = _find()
"""The library that was loaded: a file, or a name that the system's loader found."""
_library = _load()


def version() -> Tuple[int, int, int]:
    """The version of the library that was loaded: (1, 2, 3) is 1.2.3."""
    return _parts(_library.softlode_version())


# Numbers go to the library by these two functions alone: ctypes would cut off what does not fit.


def _int(value: Any, name: str) -> int:
    """An int, or whatever says that it is one; a truth value is not, since that is a mistake."""
    if isinstance(value, bool) or not hasattr(value, "__index__"):
        raise TypeError(f"{name} must be an int, not {type(value).__name__}")
    return operator.index(value)


def _number(value: Any, name: str) -> int:
    """A number that is passed to a call. What does not fit becomes 2**32 - 1: that is no volunteer, right, minute or
    part of a date either, so that the library refuses it, and in its own order.
    """
    number = _int(value, name)
    return number if 0 <= number < 0xFFFFFFFF else 0xFFFFFFFF


def _field(value: Any, bits: int, name: str) -> int:
    """A number that is kept, and so must fit."""
    number = _int(value, name)
    if not 0 <= number < 1 << bits:
        raise ValueError(f"{name} must be from 0 to 2**{bits} - 1, not {number}")
    return number


def _members(bits: int) -> FrozenSet[int]:
    """The numbers in a set: bit i stands for number i."""
    return frozenset(number for number in range(64) if bits >> number & 1)


def _has(bits: int, number: int) -> bool:
    return bool(bits >> number & 1)


def text(number: int) -> str:
    """What a refusal's number means, in a line; "" for 0."""
    return _library.softlode_text(_number(number, "number")).decode("ascii")


class Refusal(Exception):
    """Why a call was refused: one number, whose text says in a line what it means. A refused call changes nothing."""

    def __init__(self, number: int) -> None:
        super().__init__(int(number))

    @property
    def number(self) -> int:
        """The number: compare it with those of Reason."""
        return self.args[0]

    @property
    def text(self) -> str:
        """What the number means, in a line."""
        return text(self.number)

    def __str__(self) -> str:
        return f"refused {self.number}: {self.text}"


def _judge(told: Any) -> Any:
    """What a function told, or its refusal."""
    if told.refusal != 0:
        raise Refusal(told.refusal)
    return told


@dataclasses.dataclass(frozen=True)
class Yes:
    """A yes, which is true; a no is None."""

    role: int
    """The lowest role that grants it. It may be 0."""

    def __bool__(self) -> bool:
        return True


@dataclasses.dataclass(frozen=True)
class Use:
    """A use to come, which is true; no use any more is None."""

    minute: int
    """The first minute of it. It may be 0."""

    def __bool__(self) -> bool:
        return True


def _answer(refusal: int, yes: int, role: int) -> Optional[Yes]:
    if refusal != 0:
        raise Refusal(refusal)
    return Yes(role) if yes else None


class Page(Sequence[Optional[Yes]]):
    """The answers to a page of questions, in their order. `page[i]` is what the single question would give: Yes, None
    for no, or its Refusal, which is raised. So is it by a loop that comes to it; `refusals` tells beforehand which
    questions were refused. A page is neither true nor false, so that it is not taken for an answer.
    """

    __slots__ = ("_places",)

    def __init__(self, places: Iterable[Tuple[int, int, int]]) -> None:
        self._places = tuple(places)

    def __len__(self) -> int:
        return len(self._places)

    def __bool__(self) -> NoReturn:
        raise TypeError("a page is neither true nor false: look at its answers, one by one")

    @overload
    def __getitem__(self, index: int) -> Optional[Yes]: ...

    @overload
    def __getitem__(self, index: slice) -> Page: ...

    def __getitem__(self, index: Union[int, slice]) -> Union[Optional[Yes], Page]:
        if isinstance(index, slice):
            return Page(self._places[index])
        return _answer(*self._places[index])

    @property
    def refusals(self) -> Dict[int, Refusal]:
        """The refusals, 33, 34 or 35, by the places of their questions."""
        return {place: Refusal(refusal) for place, (refusal, _, _) in enumerate(self._places) if refusal != 0}

    def __eq__(self, other: object) -> bool:
        return self._places == other._places if isinstance(other, Page) else NotImplemented

    def __hash__(self) -> int:
        return hash(self._places)

    def __repr__(self) -> str:
        refused = self.refusals
        shown = (repr(refused[place]) if place in refused else repr(self[place]) for place in range(len(self)))
        return f"Page([{', '.join(shown)}])"


@dataclasses.dataclass(frozen=True)
class Board:
    """The staff board of one minute: what everyone may use then."""

    rows: int
    """How many rows of the table enable their derived role then."""
    rights: Tuple[int, ...] = dataclasses.field(repr=False)
    """The set of rights of each of 64 volunteers, bit i for right i; empty past the last volunteer."""

    def _set_of(self, volunteer: int) -> int:
        number = _number(volunteer, "volunteer")
        return self.rights[number] if number < len(self.rights) else 0

    def rights_of(self, volunteer: int) -> FrozenSet[int]:
        """The rights of the volunteer. A volunteer who is not there has none, and is no refusal."""
        return _members(self._set_of(volunteer))

    def may(self, volunteer: int, right: int) -> bool:
        """Whether the volunteer may use the right. Numbers that are not there may not, and are no refusal."""
        return _has(self._set_of(volunteer), _number(right, "right"))


class TableSize(NamedTuple):
    """How large a rota's table is."""

    derived: int
    """Derived roles."""
    rows: int
    length: int
    """Bytes."""


class _Count:
    """A number of the header of what was read, which cannot be set."""

    def __init__(self, doc: str) -> None:
        self.__doc__ = doc

    def __set_name__(self, owner: type, name: str) -> None:
        self._name = name

    def __get__(self, lent: Any, owner: Optional[type] = None) -> int:
        return self if lent is None else getattr(lent._counts, self._name)  # type: ignore[return-value]

    def __set__(self, lent: Any, value: Any) -> NoReturn:
        raise AttributeError(f"{self._name} is read from the bytes, and cannot be set")


class _Lent:
    """What a rota and a table have in common: bytes that were accepted, and questions to them."""

    __slots__ = ("_bytes", "_counts")
    _kind: ClassVar[str]

    def __init__(self, data: Union[bytes, bytearray, memoryview]) -> None:
        # What the caller may change later is copied.
        self._bytes = data if type(data) is bytes else memoryview(data).tobytes()
        self._counts = _judge(self._call("read"))

    def _call(self, name: str, *arguments: int, before: Sequence[Any] = ()) -> Any:
        """Calls the function of this name for what is lent."""
        return getattr(_library, f"softlode_{self._kind}_{name}")(*before, self._bytes, len(self._bytes), *arguments)

    cycle = _Count("Minutes, 1 to 40,320.")
    volunteers = _Count("How many there are. They are numbered from 0.")
    rights = _Count("How many there are. They are numbered from 0.")
    roles = _Count("How many roles the rota has. They are numbered from 0.")

    def may(self, volunteer: int, right: int, minute: int) -> Optional[Yes]:
        """May the volunteer use the right at the minute? Yes with the lowest role, which is true also for role 0, or
        None for no. Or refusal 33, 34, 35.
        """
        numbers = _number(volunteer, "volunteer"), _number(right, "right"), _number(minute, "minute")
        told = self._call("question", *numbers)
        return _answer(told.refusal, told.yes, told.value)

    def page(self, questions: Iterable[Tuple[int, int, int]]) -> Page:
        """Answers a page of up to 256 questions, each of volunteer, right and minute, by one call. `page[i]` of what
        it gives is what may() would give to question i, refusals included. Or refusal 51 for more questions.
        """
        # One question over the limit is as good as any more, which may have no end.
        asked = [
            (_number(volunteer, "volunteer"), _number(right, "right"), _number(minute, "minute"))
            for volunteer, right, minute in itertools.islice(questions, MOST_QUESTIONS + 1)
        ]
        records = (_question * len(asked))(*asked)
        refusal = self._call("page", before=(records, len(asked)))
        if refusal != 0:
            raise Refusal(refusal)
        return Page([(record.answer.refusal, record.answer.yes, record.answer.role) for record in records])

    def __bytes__(self) -> bytes:
        return self._bytes

    def __eq__(self, other: object) -> bool:
        # A rota and a table are never the same bytes, since their formats differ.
        return self._bytes == other._bytes if isinstance(other, _Lent) else NotImplemented

    def __hash__(self) -> int:
        return hash(self._bytes)

    def __reduce__(self) -> Tuple[type, Tuple[bytes]]:
        # Bytes that come back from a store are judged again.
        return type(self), (self._bytes,)

    def __repr__(self) -> str:
        counts = (f"{name}={getattr(self._counts, name)}" for name, _ in self._counts._fields_ if name != "refusal")
        return f"<{type(self).__name__} {' '.join(counts)}, {len(self._bytes)} bytes>"


class Table(_Lent):
    """A table that was accepted, in its bytes; or refusals 21 to 28. Pass exactly the bytes of the table. They are
    judged at once, and what is changed in `data` later makes no difference.
    """

    __slots__ = ()
    _kind = "table"

    derived = _Count("How many derived roles there are.")
    rows = _Count("How many rows there are, each of which enables a derived role.")

    def next_use(self, volunteer: int, right: int, minute: int) -> Optional[Use]:
        """When can the volunteer next use the right? A Use with the first minute from `minute` on, that one included,
        at which may() would be a yes, which is true also for minute 0; or None for none before the end of 2400. Or
        refusal 33, 34, 35.
        """
        numbers = _number(volunteer, "volunteer"), _number(right, "right"), _number(minute, "minute")
        told = _judge(self._call("next", *numbers))
        return Use(told.minute) if told.found else None

    def board(self, minute: int) -> Board:
        """The staff board of the minute: each volunteer has the rights for which may() would be a yes, and no other.
        Or refusal 33.
        """
        told = _judge(self._call("board", _number(minute, "minute")))
        return Board(told.rows, tuple(told.rights))


class Rota(_Lent):
    """A rota that was accepted, of either format, in the bytes of its file; or refusals 1 to 12, 52. They are judged
    at once, and what is changed in `data` later makes no difference.
    """

    __slots__ = ()
    _kind = "rota"

    hours = _Count("How many hours records there are.")
    volunteer_rows = _Count("How many rows join a volunteer with a role.")
    right_rows = _Count("How many rows join a right with a role.")
    format = _Count("1; or 3 for a tidy rota, whose rows are in order.")

    def tidy(self) -> Rota:
        """The same rota in format 3: the rows of each kind in order, each once. Rotas that differ only in the order of
        rows and in repeats become equal; answers and table stay the same.
        """
        area = ctypes.create_string_buffer(len(self._bytes))
        told = _judge(self._call("tidy", area, len(area)))
        return Rota(area.raw[: told.length])

    def table_size(self) -> TableSize:
        """How large the table is, without writing it. It takes as long as table() but for the writing."""
        told = _judge(_library.softlode_rewrite_size(self._bytes, len(self._bytes)))
        return TableSize(told.derived, told.rows, told.length)

    def table(self, most: int = ENOUGH_AREA) -> Table:
        """Rewrites the rota to its table. Or refusal 20 for a table of more bytes than `most`: a rota of 4,460 bytes
        may have a table of some 35 million.
        """
        area = ctypes.create_string_buffer(min(self.table_size().length, _field(most, 64, "most")))
        told = _judge(_library.softlode_rewrite(self._bytes, len(self._bytes), area, len(area)))
        return Table(area.raw[: told.length])


class Service:
    """The service record: now, a minute, and the volunteers whose sessions are open. A new one is at minute 0, with
    nobody open.

    Each call is lent a Rota or a Table. A refused call leaves the record as it is. It is stored by as_dict() or by
    pickle, and restored by `Service(**stored)`; a record that does not fit what is lent is refusal 40 of each call.
    Calls on one record wait for each other, so threads may share it.

        >>> import pathlib, softlode
        >>> rota = softlode.Rota(pathlib.Path("small.rota").read_bytes())
        >>> service = softlode.Service()
        >>> service.open(rota, 0)
        >>> service.ask(rota, 0, 0)
        Yes(role=0)
        >>> service.open_volunteers()
        frozenset({0})
        >>> service.advance(rota, 4)   # when volunteer 0 holds no right
        1
        >>> service
        Service(now=4, open=0x0)
    """

    __slots__ = ("_record", "_lock")
    __hash__ = None  # type: ignore[assignment]

    def __init__(self, now: int = 0, open: int = 0) -> None:
        self._record = _service(_field(now, 32, "now"), _field(open, 64, "open"))
        # A signal's handler may make a call while another has the lock on the same thread.
        self._lock = threading.RLock()

    def _call(self, name: str, lent: Union[Rota, Table], *arguments: int) -> Any:
        if not isinstance(lent, _Lent):
            raise TypeError(f"what is lent must be a Rota or a Table, not {type(lent).__name__}")
        with self._lock:
            return _judge(lent._call(name, *arguments, before=(self._record,)))

    def _fields(self) -> Tuple[int, int]:
        with self._lock:
            return self._record.now, self._record.open

    @property
    def now(self) -> int:
        """The minute."""
        return self._fields()[0]

    @property
    def open_set(self) -> int:
        """The volunteers whose sessions are open, bit i for number i: the field `open` of the record."""
        return self._fields()[1]

    def open_volunteers(self) -> FrozenSet[int]:
        """The volunteers whose sessions are open."""
        return _members(self.open_set)

    def is_open(self, volunteer: int) -> bool:
        """Whether the volunteer's session is open."""
        return _has(self.open_set, _number(volunteer, "volunteer"))

    def as_dict(self) -> Dict[str, int]:
        """The fields `now` and `open`, to be stored."""
        now, open_set = self._fields()
        return {"now": now, "open": open_set}

    def advance(self, lent: Union[Rota, Table], minute: int) -> int:
        """Moves now to the minute, and closes the session of everyone who holds no right at some minute after the old
        now, up to and with the new one, and no other; gives how many it closed. Or refusal 33; 41 for a minute before
        now.

        So a host may pause: nobody sleeps through a closing. An advance to now closes nobody.
        """
        return self._call("advance", lent, _number(minute, "minute")).value

    def open(self, lent: Union[Rota, Table], volunteer: int) -> None:
        """Opens a session for a volunteer who holds a right now. Or refusal 34; 42 already open; 43."""
        self._call("open", lent, _number(volunteer, "volunteer"))

    def close(self, lent: Union[Rota, Table], volunteer: int) -> None:
        """Closes a volunteer's session. Or refusal 34; 44 not open."""
        self._call("close", lent, _number(volunteer, "volunteer"))

    def ask(self, lent: Union[Rota, Table], volunteer: int, right: int) -> Optional[Yes]:
        """May the volunteer, whose session is open, use the right now? As Rota.may, or refusal 34; 35; 44 not open.
        The record stays as it is.
        """
        told = self._call("ask", lent, _number(volunteer, "volunteer"), _number(right, "right"))
        return _answer(told.refusal, told.yes, told.value)

    def __eq__(self, other: object) -> bool:
        return self._fields() == other._fields() if isinstance(other, Service) else NotImplemented

    def __reduce__(self) -> Tuple[type, Tuple[int, int]]:
        return type(self), self._fields()

    def __repr__(self) -> str:
        now, open_set = self._fields()
        return f"{type(self).__name__}(now={now}, open={open_set:#x})"


class DateTime(NamedTuple):
    """A minute of the calendar, as date() gives it. It prints as `Sun 2004-02-29 00:00`."""

    year: int
    month: int
    day: int
    weekday: int
    """0 Monday to 6 Sunday."""
    hour: int
    minute: int

    def __str__(self) -> str:
        weekday = ("Mon", "Tue", "Wed", "Thu", "Fri", "Sat", "Sun")[self.weekday]
        return f"{weekday} {self.year:04}-{self.month:02}-{self.day:02} {self.hour:02}:{self.minute:02}"


def date(minute: int) -> DateTime:
    """The date and time of a minute. Or refusal 33."""
    told = _judge(_library.softlode_date(_number(minute, "minute")))
    return DateTime(told.year, told.month, told.day, told.weekday, told.hour, told.minute)


def minute(year: int, month: int, day: int, hour: int = 0, minute: int = 0) -> int:
    """The minute of a date and time of day. Or refusal 50."""
    parts = {"year": year, "month": month, "day": day, "hour": hour, "minute": minute}
    return _judge(_library.softlode_minute(*(_number(value, name) for name, value in parts.items()))).minute


def from_datetime(value: _datetime.datetime) -> int:
    """The minute that a clock shows: seconds are dropped. Or refusal 50.

    A datetime with a time zone is a ValueError: minutes are those of one clock without summer time, the archive's,
    and only the host knows which that is. `fold` makes no difference.
    """
    if not isinstance(value, _datetime.datetime):
        raise TypeError(f"a datetime is needed, not {type(value).__name__}")
    if value.tzinfo is not None:
        raise ValueError(
            "the datetime has a time zone, and minutes are those of one clock without summer time: turn it into that "
            "clock's time by astimezone, and drop the zone by replace(tzinfo=None)"
        )
    return minute(value.year, value.month, value.day, value.hour, value.minute)


def to_datetime(minute: int) -> _datetime.datetime:
    """The date and time of a minute, as a datetime without a time zone. Or refusal 33."""
    found = date(minute)
    return _datetime.datetime(found.year, found.month, found.day, found.hour, found.minute)
