"""Sheafwinch for Python: decides whether one shape fits under another, at once or in instalments.

The calls are those of the proved library's C face, include/sheafwinch.h. Every call ends, on any argument; a refusal is raised as an
exception and leaves every word as found, but for the steps done before one that is refused. Build the library with tools/capi/build OUT
and set SHEAFWINCH_LIB to the full path of OUT; where it is not set, libsheafwinch.so is looked for as the system does. x86-64 Linux.

    table = Table(Capacities(entries=8, visited=8, pending=8))
    int_, number = table.make_primitive(Primitive.INT), table.make_primitive(Primitive.NUMBER)
    table.open(int_, number, 100)    # Instalment(answer=Yes(), steps=1)
"""

import ctypes
import os
import threading
from array import array
from dataclasses import dataclass
from enum import IntEnum
from typing import Iterable, Optional, Union as Either


# Bytes of stack that a thread should have free when it calls: SHEAFWINCH_STACK of the header, which says how it was found.
# Measured, not proved.
STACK_BYTES = 131072


class Primitive(IntEnum):
    """A primitive."""

    NULL = 0
    BOOL = 1
    INT = 2
    FLOAT = 3
    STRING = 4
    PATH = 5
    URI = 6
    NUMBER = 7


class Operator(IntEnum):
    """An operator on primitives."""

    ADD = 0
    SUB = 1
    MUL = 2
    DIV = 3


class Side(IntEnum):
    """A side of a variable."""

    LOWER = 0
    UPPER = 1


class Region(IntEnum):
    """A region of an image."""

    ENTRIES = 1
    FIELDS = 2
    BOUNDS = 3
    VISITED = 4
    PENDING = 5
    EQUALS = 6


@dataclass(frozen=True)
class Capacities:
    """How many records each region has room for."""

    entries: int = 0
    fields: int = 0
    bounds: int = 0
    visited: int = 0
    pending: int = 0
    equals: int = 0

    MOST = (4096, 16384, 65536, 65536, 65536, 65536)

    def words(self) -> Optional[int]:
        """The words of an image with this room, or None where a capacity is over its most."""
        if any(n > most for n, most in zip(self._all(), self.MOST)):
            return None
        return 27 + sum(n * size for n, size in zip(self._all(), (7, 3, 3, 2, 2, 2)))

    def _all(self):
        return (self.entries, self.fields, self.bounds, self.visited, self.pending, self.equals)


# What an instalment comes to.


@dataclass(frozen=True)
class Yes:
    """It fits; the question is over."""

    def __str__(self):
        return "yes"


@dataclass(frozen=True)
class More:
    """The budget is used; the question is still asked."""

    def __str__(self):
        return "MORE"


@dataclass(frozen=True)
class Mismatch:
    """A pair that does not fit; the question is over."""

    sub: int
    sup: int

    def __str__(self):
        return f"mismatch ({self.sub}, {self.sup})"


@dataclass(frozen=True)
class MissingField:
    """A closed attrset, sub, lacks a field of sup that is not optional; the question is over."""

    sub: int
    sup: int
    name: int

    def __str__(self):
        return f"missing field {self.name} ({self.sub}, {self.sup})"


Failure = Either[Mismatch, MissingField]
Answer = Either[Yes, More, Mismatch, MissingField]


@dataclass(frozen=True)
class Instalment:
    """One instalment of a question, that of its opening or of work: what it came to, and its steps."""

    answer: Answer
    steps: int

    def __str__(self):
        return f"{self.answer}, {self.steps} step{'' if self.steps == 1 else 's'}"


# Entries, as they are read.


@dataclass(frozen=True)
class Variable:
    """A variable."""

    level: int


@dataclass(frozen=True)
class PrimitiveEntry:
    """A primitive."""

    which: Primitive


@dataclass(frozen=True)
class List:
    """A list."""

    element: int


@dataclass(frozen=True)
class Lambda:
    """A lambda."""

    param: int
    body: int


@dataclass(frozen=True)
class Attrset:
    """An attrset: its first field record (0 where it has none), how many fields, whether open, its dynamic type or None."""

    first: int
    count: int
    open: bool
    dynamic: Optional[int]


@dataclass(frozen=True)
class Named:
    """An entry with a label, which is never tested."""

    inner: int
    label: int


@dataclass(frozen=True)
class Neg:
    """A negation."""

    inner: int


@dataclass(frozen=True)
class Inter:
    """An intersection."""

    left: int
    right: int


@dataclass(frozen=True)
class Union:
    """A union."""

    left: int
    right: int


Entry = Either[Variable, PrimitiveEntry, List, Lambda, Attrset, Named, Neg, Inter, Union]


# Records of regions, as they are read.


@dataclass(frozen=True)
class EntryRecord:
    """A record of entries, its words."""

    kind: int
    x: int
    y: int
    z: int
    flags: int
    spread: int
    negation: int


@dataclass(frozen=True)
class Field:
    """A field of an attrset: the number of its name, its entry, whether it may be missing."""

    name: int
    entry: int
    optional: bool = False


@dataclass(frozen=True)
class Bound:
    """A bound of a variable."""

    variable: int
    side: Side
    bound: int


@dataclass(frozen=True)
class Pair:
    """A record of visited or pending: sub and sup; of equals: left and right."""

    left: int
    right: int


Record = Either[EntryRecord, Field, Bound, Pair]


class Refusal(Exception):
    """A call was refused. `number` is the refusal's number, `steps` the steps that open, open_equal or work did before it (else 0)."""

    number = 0
    name = ""

    def __init__(self, steps: int = 0):
        super().__init__(self.name)
        self.steps = steps


class BadTable(Refusal):
    """The words are no well formed image. Only Table.from_words raises it."""

    number, name = 1, "BAD TABLE"


class BadNumber(Refusal):
    """An entry, record, primitive, side, region, name or operator number that there is not."""

    number, name = 2, "BAD NUMBER"


class Busy(Refusal):
    """A question is asked, and the call is not a read, work or abandon."""

    number, name = 3, "BUSY"


class Idle(Refusal):
    """Work or abandon, and no question is asked."""

    number, name = 4, "IDLE"


class NoRoom(Refusal):
    """`region` lacks a record: the first that does, in order."""

    number, name = 5, "NO ROOM"

    def __init__(self, region: Region, steps: int = 0):
        super().__init__(steps)
        self.region = region
        self.args = (f"NO ROOM({int(region)})",)


class TooDeep(Refusal):
    """A new entry's spread would pass 1,024."""

    number, name = 6, "TOO DEEP"


class BadFields(Refusal):
    """Names of fields not strictly ascending, or not below the name count."""

    number, name = 7, "BAD FIELDS"


class Broken(Refusal):
    """A held question, and one in this table has failed: `failure` is the first."""

    number, name = 8, "BROKEN"

    def __init__(self, failure: Failure):
        super().__init__()
        self.failure = failure
        self.args = (f"BROKEN: {failure}",)


class BadCapacity(Refusal):
    """A capacity over its most, over 4,096 names, or a functor that is no name."""

    number, name = 9, "BAD CAPACITY"


class Level(Refusal):
    """Exit at level 0, enter at 4,294,967,295."""

    number, name = 10, "LEVEL"


class NotAVariable(Refusal):
    """A bound or a level for an entry that is no variable."""

    number, name = 11, "NOT A VARIABLE"


class BadNames(Refusal):
    """A name list that is malformed."""

    number, name = 12, "BAD NAMES"


class Unopened(Refusal):
    """A question was refused at its opening: no step, and every word as found. `refusal` is which; number and name are its."""

    def __init__(self, refusal: Refusal):
        super().__init__()
        self.refusal, self.number, self.name, self.args = refusal, refusal.number, refusal.name, refusal.args


_PLAIN = {r.number: r for r in (BadTable, BadNumber, Busy, Idle, TooDeep, BadFields, BadCapacity, Level, NotAVariable, BadNames)}


class _Answer(ctypes.Structure):
    _fields_ = [(name, ctypes.c_uint32) for name in ("kind", "number", "steps", "count")] + [("values", ctypes.c_uint32 * 8)]


class _Capacities(ctypes.Structure):
    _fields_ = [(name, ctypes.c_uint32) for name in ("entries", "fields", "bounds", "visited", "pending", "equals")]


_DONE, _YES, _MORE, _FAILED, _REFUSED, _UNOPENED = 0, 1, 2, 3, 4, 5


def _load():
    folder = os.environ.get("SHEAFWINCH_LIB")
    path = os.path.join(folder, "libsheafwinch.so") if folder else "libsheafwinch.so"
    try:
        library = ctypes.CDLL(path)
    except OSError as error:
        raise ImportError(f"{error}: run tools/capi/build OUT and set SHEAFWINCH_LIB to the full path of OUT") from error
    word, size = ctypes.c_uint32, ctypes.c_size_t
    image, names = [ctypes.POINTER(word), size], [ctypes.c_char_p, size]
    calls = {
        "check": image,
        "start": image + [word, word, _Capacities],
        "make_attrset": image + [ctypes.POINTER(word), size, word, word, word],
        "find_name": names + names,
    }
    # Calls on an image, on names and on neither, with so many words after.
    for name, more in (("make_variable", 0), ("make_primitive", 1), ("make_list", 1), ("make_lambda", 2), ("make_named", 2),
                       ("make_neg", 1), ("make_inter", 2), ("make_union", 2), ("mark", 1), ("put_bound", 3), ("enter", 0),
                       ("exit", 0), ("set_level", 2), ("open", 4), ("open_equal", 4), ("work", 1), ("abandon", 0), ("entry", 1),
                       ("record", 2), ("disjoint", 2)):
        calls[name] = image + [word] * more
    for name, more in (("check_names", 0), ("check_name", 1), ("count_names", 0), ("show_name", 1), ("compare_names", 2)):
        calls[name] = names + [word] * more
    for name, more in (("resolve", 3), ("from_left", 2), ("at_once", 1)):
        calls[name] = [word] * more
    found = {}
    for name, arguments in calls.items():
        call = getattr(library, "sheafwinch_" + name)
        call.argtypes = arguments
        call.restype = ctypes.c_bool if name == "check" else _Answer
        found[name] = call
    return found


_calls = _load()


def _word(n: int) -> int:
    """A 32-bit word; ctypes would cut a larger number."""
    n = int(n)
    if not 0 <= n <= 0xFFFFFFFF:
        raise ValueError(f"{n} is no 32-bit word")
    return n


def _failure(kind: int, sub: int, sup: int, name: int) -> Failure:
    return Mismatch(sub, sup) if kind == 1 else MissingField(sub, sup, name)


def _refusal(answer: _Answer) -> Refusal:
    if answer.number == NoRoom.number:
        return NoRoom(Region(answer.values[0]), answer.steps)
    if answer.number == Broken.number:
        return Broken(_failure(*answer.values[:4]))
    return _PLAIN[answer.number](answer.steps)


def _told(answer: _Answer) -> _Answer:
    """The answer, or the refusal raised."""
    if answer.kind == _UNOPENED:
        raise Unopened(_refusal(answer))
    if answer.kind == _REFUSED:
        raise _refusal(answer)
    return answer


def _instalment(told: _Answer) -> Instalment:
    if told.kind == _FAILED:
        return Instalment(_failure(told.number, *told.values[:3]), told.steps)
    return Instalment(Yes() if told.kind == _YES else More(), told.steps)


def _lent(words: array):
    return (ctypes.c_uint32 * len(words)).from_buffer(words)


def check(words: Iterable[int]) -> bool:
    """Whether words are a well formed image."""
    lent = _lent(array("I", words))
    return _calls["check"](lent, len(lent))


class Table:
    """A table: an image and the words that hold it. The words are a well formed image at all times. Calls from several threads on
    one table wait for each other."""

    def __init__(self, capacities: Capacities, names: int = 0, functor: Optional[int] = None):
        """No records, level 0, no question asked. `names` is how many names there are, `functor` the number of the name __functor.
        Refusals: 9."""
        room = _Capacities(*map(_word, capacities._all()))
        # Without words for capacities over their most: start refuses them.
        self._hold(array("I", bytes(4 * (capacities.words() or 0))))
        # The word is the functor's number plus 1; the last number is over any table's names, with or without 1 more.
        self._call("start", names, 0 if functor is None else min(_word(functor) + 1, 0xFFFFFFFF), room)

    @classmethod
    def from_words(cls, words: Iterable[int]) -> "Table":
        """A table from words that words() gave, or any others: they are checked. Refusals: 1."""
        words = array("I", words)
        if not check(words):
            raise BadTable()
        table = cls.__new__(cls)
        table._hold(words)
        return table

    def _hold(self, words: array):
        assert words.itemsize == 4
        self._array, self._words, self._lock = words, _lent(words), threading.Lock()

    def _call(self, name, *arguments):
        arguments = [_word(a) if isinstance(a, int) else a for a in arguments]
        with self._lock:
            return _told(_calls[name](self._words, len(self._words), *arguments))

    def words(self) -> array:
        """A copy of the image's words, to store or send."""
        with self._lock:
            return self._array[:]

    def copy(self) -> "Table":
        """A table of its own with the same words."""
        return Table.from_words(self.words())

    def __eq__(self, other):
        return self.words() == other.words() if isinstance(other, Table) else NotImplemented

    __hash__ = None

    def count(self, region: Region) -> int:
        """How many records a region has."""
        return self._array[8 + 3 * Region(region)]

    def capacity(self, region: Region) -> int:
        """How many records a region has room for."""
        return self._array[7 + 3 * Region(region)]

    def asked(self) -> bool:
        """Whether a question is asked."""
        return self._array[1] != 0

    def broken(self) -> Optional[Failure]:
        """The first failure of a question in this table, which refuses held questions."""
        kind, sub, sup, name = self._array[2:6]
        return None if kind == 0 else _failure(kind, sub, sup, name)

    def level(self) -> int:
        """The current level."""
        return self._array[6]

    def names(self) -> int:
        """How many names there are."""
        return self._array[7]

    # The makes: each gives the number of the entry.

    def make_variable(self) -> int:
        """Makes a variable at the current level. Refusals: 3, 5."""
        return self._call("make_variable").values[0]

    def make_primitive(self, which: Primitive) -> int:
        """Makes a primitive. Refusals: 3, 2, 5."""
        return self._call("make_primitive", which).values[0]

    def make_list(self, element: int) -> int:
        """Makes a list. Refusals: 3, 2, 5."""
        return self._call("make_list", element).values[0]

    def make_lambda(self, param: int, body: int) -> int:
        """Makes a lambda. Refusals: 3, 2, 5."""
        return self._call("make_lambda", param, body).values[0]

    def make_attrset(self, fields: Iterable[Field], open: bool = False, dynamic: Optional[int] = None) -> int:
        """Makes an attrset; names strictly ascending. Refusals: 3, 7, 2, 5."""
        words = [_word(w) for f in fields for w in (f.name, f.entry, bool(f.optional))]
        lent = (ctypes.c_uint32 * len(words))(*words)
        has = dynamic is not None
        return self._call("make_attrset", lent, len(words), bool(open), has, dynamic if has else 0).values[0]

    def make_named(self, inner: int, label: int) -> int:
        """Makes an entry with a label, which is any word. Refusals: 3, 2, 5, 6."""
        return self._call("make_named", inner, label).values[0]

    def make_neg(self, n: int) -> int:
        """The negation of an entry: one that stands there, or a new one. May make more than one entry. Refusals: 3, 2, 5, 6."""
        return self._call("make_neg", n).values[0]

    def make_inter(self, left: int, right: int) -> int:
        """Makes an intersection. Refusals: 3, 2, 5, 6."""
        return self._call("make_inter", left, right).values[0]

    def make_union(self, left: int, right: int) -> int:
        """Makes a union. Refusals: 3, 2, 5, 6."""
        return self._call("make_union", left, right).values[0]

    def mark(self, n: int) -> None:
        """Sets the default mark of an entry. Refusals: 3, 2."""
        self._call("mark", n)

    def put_bound(self, variable: int, side: Side, bound: int) -> None:
        """Puts a bound of a variable on a side. Refusals: 3, 2, 11, 5."""
        self._call("put_bound", variable, side, bound)

    def enter(self) -> None:
        """Enters a level. Refusals: 3, 10."""
        self._call("enter")

    def exit(self) -> None:
        """Leaves a level. Refusals: 3, 10."""
        self._call("exit")

    def set_level(self, variable: int, level: int) -> None:
        """Sets a variable's level. Refusals: 3, 2, 11."""
        self._call("set_level", variable, level)

    def open(self, sub: int, sup: int, budget: int, held: bool = False) -> Instalment:
        """Opens the question whether sub fits under sup, and works it, at most `budget` steps: the first instalment. Budget 0 opens it
        and answers More, 0 steps. After More work goes on. A held question is refused once a question in this table has failed.
        Unopened is raised where it is refused at the opening: 3, 8 if held, 2, 5. NoRoom and TooDeep are raised at a step: they keep the
        steps before it, tell their number in `steps`, and leave the question asked."""
        return _instalment(self._call("open", bool(held), sub, sup, budget))

    def open_equal(self, left: int, right: int, budget: int, held: bool = False) -> Instalment:
        """Opens the question whether each of two entries fits under the other, and works it; all else is as for open."""
        return _instalment(self._call("open_equal", bool(held), left, right, budget))

    def work(self, budget: int) -> Instalment:
        """Works the question that is asked, at most `budget` steps: a later instalment. After More the next work goes on where this one
        stopped. Refusals: 4, and at a step 5, 6: these keep the steps before it, tell their number in `steps`, and leave the
        question asked."""
        return _instalment(self._call("work", budget))

    def abandon(self) -> None:
        """Gives up the question that is asked. What its steps added stays, visited pairs too, so a later question may say yes
        for nothing: open no more in that table. Refusals: 4."""
        self._call("abandon")

    def entry(self, n: int) -> Entry:
        """Reads an entry. Refusals: 2."""
        told = self._call("entry", n)
        kind, *v = told.values[: told.count]
        if kind == 1:
            return PrimitiveEntry(Primitive(v[0]))
        if kind == 4:
            return Attrset(v[0], v[1], v[2] != 0, v[4] if v[3] else None)
        return {0: Variable, 2: List, 3: Lambda, 5: Named, 6: Neg, 7: Inter, 8: Union}[kind](*v)

    def record(self, region: Region, n: int) -> Record:
        """Reads record n of a region. Refusals: 2."""
        told = self._call("record", region, n)
        which, *v = told.values[: told.count]
        if which == Region.ENTRIES:
            return EntryRecord(*v)
        if which == Region.FIELDS:
            return Field(v[0], v[1], v[2] != 0)
        if which == Region.BOUNDS:
            return Bound(v[0], Side(v[1]), v[2])
        return Pair(*v)

    def disjoint(self, left: int, right: int) -> bool:
        """Whether two entries are disjoint by their shapes and so share no value; no says that nothing is known. Refusals: 2."""
        return self._call("disjoint", left, right).values[0] != 0


class Names:
    """A name list: bytes that may be one; every call checks. See the header for the form."""

    def __init__(self, list: bytes):
        self.list = bytes(list)

    def _call(self, name, *numbers):
        return _told(_calls[name](self.list, len(self.list), *map(_word, numbers)))

    def check(self) -> None:
        """Whether the bytes are a name list. Refusals: 12."""
        self._call("check_names")

    def check_name(self, n: int) -> None:
        """Whether they are, and have a name n. Refusals: 12, 2."""
        self._call("check_name", n)

    def count(self) -> int:
        """How many names there are. Refusals: 12."""
        return self._call("count_names").values[0]

    def show(self, n: int) -> bytes:
        """The bytes of name n. Refusals: 12, 2."""
        start, length = self._call("show_name", n).values[:2]
        return self.list[start : start + length]

    def compare(self, left: int, right: int) -> int:
        """-1, 0 or 1: by unsigned bytes, a proper prefix first. Refusals: 12, 2."""
        return self._call("compare_names", left, right).values[0] - 1

    def find(self, name: bytes) -> Optional[int]:
        """The number of the name that has these bytes, or None. Refusals: 12."""
        told = _told(_calls["find_name"](self.list, len(self.list), bytes(name), len(name)))
        return told.values[0] if told.count else None


def _primitive(answer: _Answer) -> Optional[Primitive]:
    told = _told(answer)
    return Primitive(told.values[0]) if told.count else None


def resolve(op: Operator, left: Primitive, right: Primitive) -> Optional[Primitive]:
    """The result of an operator on two primitives, or None where nothing is known. Refusals: 2."""
    return _primitive(_calls["resolve"](_word(op), _word(left), _word(right)))


def from_left(op: Operator, left: Primitive) -> Optional[Primitive]:
    """The result as far as the left primitive alone settles it. Refusals: 2."""
    return _primitive(_calls["from_left"](_word(op), _word(left)))


def at_once(op: Operator) -> Optional[Primitive]:
    """The primitive that bounds operands and result at once, or None. Refusals: 2."""
    return _primitive(_calls["at_once"](_word(op)))
