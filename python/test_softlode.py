"""Tests of softlode.py: in its folder, `python3 -m unittest`.

The module is whichever Python finds, and it finds its library by itself; SOFTLODE_LIBRARY may name another. The header
and the data are those of the repository: the folder above this file's, or the one that SOFTLODE_REPOSITORY names.
"""

import array
import copy
import ctypes
import datetime
import doctest
import enum
import itertools
import json
import os
import pathlib
import pickle
import random
import re
import shutil
import subprocess
import sys
import tempfile
import threading
import time
import unittest
from types import ModuleType
from unittest import mock

import softlode
from softlode import LAST_MINUTE, DateTime, Reason, Refusal, Rota, Service, Table, Use, Yes

REPOSITORY = pathlib.Path(os.environ.get("SOFTLODE_REPOSITORY") or pathlib.Path(__file__).resolve().parent.parent)
DATA = REPOSITORY / "data"
HEADER = (REPOSITORY / "include" / "softlode.h").read_text()
SMALL = (DATA / "small.rota").read_bytes()
SMALL_TABLE = (DATA / "small.table").read_bytes()
WEEK = (DATA / "week.rota").read_bytes()
WEEK_TABLE = (DATA / "week.table").read_bytes()
HOUR, DAY = 60, 24 * 60
# Numbers of which no one is there; by 32 bits alone the last five would be 0 or 1.
NOT_THERE = [-1, -(2**31), 2**32 - 1, -(2**32), 2**32, 2**32 + 1, 2**64, 10**30 * 2**32]
NO_NUMBERS = [True, False, 1.0, "1", b"1", None, [1], Yes(1), Use(1)]


def names_of_header():
    """The refusals of the header: numbers by names."""
    body = re.search(r"enum softlode_refusal \{(.*?)\}", HEADER, re.S).group(1)
    return {name: int(number) for name, number in re.findall(r"SOFTLODE_(\w+) = (\d+)", body)}


def texts_of_header():
    """What the numbers mean, by names."""
    return dict(re.findall(r'case SOFTLODE_(\w+): return "(.*)";', HEADER))


def edited(data, at, *values):
    """The bytes with others in a place."""
    return data[:at] + bytes(values) + data[at + len(values) :]


def outcome(call, *arguments):
    """What a call gives, or the number of its refusal, in a form to compare."""
    try:
        return "given", call(*arguments)
    except Refusal as refusal:
        return "refused", refusal.number


class Case(unittest.TestCase):
    def refused(self, number, call, *arguments):
        """A call is refused with that number."""
        with self.assertRaises(Refusal) as caught:
            call(*arguments)
        self.assertEqual(caught.exception.number, number)
        return caught.exception


class Declarations(Case):
    """The module's declarations are the header's."""

    def types(self):
        """Types of ctypes by those of C."""
        types = {
            "uint32_t": ctypes.c_uint32,
            "uint64_t": ctypes.c_uint64,
            "size_t": ctypes.c_size_t,
            "const char *": ctypes.c_char_p,
            "const uint8_t *": ctypes.c_char_p,
            "uint8_t *": ctypes.POINTER(ctypes.c_char),
        }
        for name in self.structs():
            types[name] = getattr(softlode, name[len("softlode") :])
            types[f"{name} *"] = ctypes.POINTER(types[name])
        return types

    def structs(self):
        """The fields of the header's structs, by names."""
        found = re.findall(r"typedef struct (softlode_\w+) \{(.*?)\} \1;", HEADER, re.S)
        field = r"^ +(\w+) (\w+)(?:\[(\d+)\])?;"
        return {name: re.findall(field, body, re.M) for name, body in found}

    def test_structs(self):
        structs, types = self.structs(), self.types()
        self.assertEqual(len(structs), len(re.findall(r"typedef struct", HEADER)))
        for name, fields in structs.items():
            with self.subTest(name):
                declared = [(field, types[kind] * int(count) if count else types[kind]) for kind, field, count in fields]
                self.assertEqual(types[name].__name__, name)
                self.assertEqual(types[name]._fields_, declared)

    def test_layouts(self):
        """They have the sizes and offsets that hosts/host.c asserts."""
        pattern = r"_Static_assert\(sizeof\((\w+)\) == (\d+) && offsetof\(\1, (\w+)\) == (\d+)"
        asserted = re.findall(pattern, (REPOSITORY / "hosts" / "host.c").read_text())
        types = self.types()
        self.assertEqual({name for name, *_ in asserted}, set(self.structs()))
        for name, size, field, offset in asserted:
            with self.subTest(name):
                self.assertEqual(ctypes.sizeof(types[name]), int(size))
                self.assertEqual(getattr(types[name], field).offset, int(offset))

    def test_functions(self):
        types = self.types()
        found = re.findall(r"^(?!static)((?:const )?\w+ \*?)(softlode_\w+)\((.*)\);$", HEADER, re.M)
        self.assertEqual({name for _, name, _ in found}, set(softlode._FUNCTIONS))
        self.assertEqual(len(found), len(re.findall(r"^[a-z].*\(.*\);$", HEADER, re.M)))
        for gives, name, takes in found:
            with self.subTest(name):
                takes = [] if takes == "void" else [re.sub(r"\w+$", "", one).strip() for one in takes.split(", ")]
                bound = getattr(softlode._library, name)
                self.assertIs(bound.restype, types[gives.strip()])
                self.assertEqual(list(bound.argtypes), [types[one] for one in takes])

    def test_refusals(self):
        names, texts = names_of_header(), texts_of_header()
        self.assertEqual({reason.name: reason.value for reason in Reason}, names)
        self.assertEqual(set(texts), set(names))
        for name, number in names.items():
            self.assertEqual(softlode.text(number), texts[name])
            self.assertEqual(str(Refusal(number)), f"refused {number}: {texts[name]}")
        self.assertEqual(softlode.text(0), "")
        for number in (13, *NOT_THERE):
            self.assertEqual(softlode.text(number), re.search(r'default: return "(.*)";', HEADER).group(1))

    def test_limits(self):
        limits = dict(re.findall(r"#define SOFTLODE_(\w+) (\d+)$", HEADER, re.M))
        version = [int(limits.pop(f"VERSION_{part}")) for part in ("MAJOR", "MINOR", "PATCH")]
        self.assertEqual(softlode.VERSION, version[0] * 1000000 + version[1] * 1000 + version[2])
        self.assertEqual(softlode._parts(softlode.VERSION), tuple(version))
        self.assertEqual(softlode.version()[0], version[0])
        self.assertGreaterEqual(softlode.version(), tuple(version))
        self.assertEqual(len(limits), 4)
        for name, number in limits.items():
            self.assertEqual(getattr(softlode, name), int(number))

    def test_exports(self):
        public = {name for name, value in vars(softlode).items() if getattr(value, "__module__", None) == "softlode"}
        public |= {name for name, value in vars(softlode).items() if name.isupper() and isinstance(value, (int, str))}
        self.assertEqual({name for name in public if not name.startswith("_")}, set(softlode.__all__))


class Refusals(Case):
    def test_every_number(self):
        small, table = Rota(SMALL), Table(SMALL_TABLE)
        calls = {
            1: lambda: Rota(SMALL[:11]),
            2: lambda: Rota(edited(SMALL, 0, 9)),
            3: lambda: Rota(edited(SMALL, 2, 0)),
            4: lambda: Rota(edited(SMALL, 4, 33)),
            5: lambda: Rota(SMALL[:20]),
            6: lambda: Rota(edited(SMALL, 16, 0)),
            7: lambda: Rota(edited(SMALL, 20, 0)),
            8: lambda: Rota(edited(SMALL, 24, 0)),
            9: lambda: Rota(SMALL[:-1]),
            10: lambda: Rota(edited(SMALL, 44, 2)),
            11: lambda: Rota(edited(SMALL, 45, 2)),
            12: lambda: Rota(edited(SMALL, 51, 1)),
            20: lambda: small.table(most=194),
            21: lambda: Table(SMALL_TABLE[:15]),
            22: lambda: Table(SMALL),
            23: lambda: Table(edited(SMALL_TABLE, 2, 0)),
            24: lambda: Table(edited(SMALL_TABLE, 4, 65)),
            25: lambda: Table(SMALL_TABLE + b"\0"),
            26: lambda: Table(edited(SMALL_TABLE, 16, 1)),
            27: lambda: Table(edited(SMALL_TABLE, 67, 3)),
            28: lambda: Table(edited(SMALL_TABLE, 83, *SMALL_TABLE[67:83])),
            33: lambda: small.may(0, 0, LAST_MINUTE + 1),
            34: lambda: table.may(2, 0, 0),
            35: lambda: small.may(0, 1, 0),
            40: lambda: Service(open=4).advance(small, 1),
            41: lambda: Service(now=4).advance(table, 3),
            42: lambda: Service(open=1).open(small, 0),
            43: lambda: Service().open(table, 1),
            44: lambda: Service().ask(small, 1, 0),
            50: lambda: softlode.minute(2023, 2, 29, 0, 0),
            51: lambda: table.page([(0, 0, 0)] * 257),
            52: lambda: Rota(edited(SMALL, 0, 3)[:45] + SMALL[48:51] + SMALL[45:48] + SMALL[51:]),
        }
        self.assertEqual(set(calls), set(names_of_header().values()))
        for number, call in calls.items():
            with self.subTest(number):
                refusal = self.refused(number, call)
                self.assertIs(type(refusal.number), int)
                self.assertEqual(refusal.number, Reason(number))
                self.assertEqual(refusal.text, texts_of_header()[Reason(number).name])
                self.assertEqual(str(refusal), f"refused {number}: {refusal.text}")

    def test_as_an_exception(self):
        refusal = Refusal(Reason.BEFORE_NOW)
        self.assertEqual((repr(refusal), str(refusal)), ("Refusal(41)", "refused 41: the minute is before now"))
        for again in (pickle.loads(pickle.dumps(refusal)), copy.copy(refusal)):
            self.assertEqual((type(again), again.number, again.text), (Refusal, 41, refusal.text))


class Numbers(Case):
    """No number of any call is cut off to 32 bits, and nothing else is taken for a number."""

    def calls(self):
        """Each parameter of each call that is a number: its refusal, and the call by that number."""
        small, table = Rota(SMALL), Table(SMALL_TABLE)
        yield from ((33, softlode.date), (33, softlode.to_datetime), (33, table.board))
        date = (2004, 2, 29, 0, 0)
        for place in range(5):
            yield 50, lambda number, place=place: softlode.minute(*date[:place], number, *date[place + 1 :])
        for lent in (small, table):
            yield 33, lambda number, lent=lent: lent.may(0, 0, number)
            yield 34, lambda number, lent=lent: lent.may(number, 0, 0)
            yield 35, lambda number, lent=lent: lent.may(0, number, 0)
            yield 33, lambda number, lent=lent: lent.page([(0, 0, number)])[0]
            yield 34, lambda number, lent=lent: lent.page([(number, 0, 0)])[0]
            yield 35, lambda number, lent=lent: lent.page([(0, number, 0)])[0]
            yield 33, lambda number, lent=lent: Service().advance(lent, number)
            yield 34, lambda number, lent=lent: Service().open(lent, number)
            yield 34, lambda number, lent=lent: Service(open=3).close(lent, number)
            yield 34, lambda number, lent=lent: Service(open=3).ask(lent, number, 0)
            yield 35, lambda number, lent=lent: Service(open=3).ask(lent, 0, number)
        yield 33, lambda number: table.next_use(0, 0, number)
        yield 34, lambda number: table.next_use(number, 0, 0)
        yield 35, lambda number: table.next_use(0, number, 0)

    def test_refused(self):
        for refusal, call in self.calls():
            for number in NOT_THERE:
                with self.subTest(refusal=refusal, number=number):
                    self.refused(refusal, call, number)

    def test_no_refusal(self):
        """Where there is no refusal, a number that is not there is in no set."""
        board, service = Table(SMALL_TABLE).board(12), Service(open=2**64 - 1)
        self.assertTrue(board.may(0, 0) and board.may(1, 0) and service.is_open(0) and service.is_open(63))
        for number in (2, 63, 64, *NOT_THERE):
            self.assertEqual(board.rights_of(number), frozenset())
            self.assertIs(board.may(number, 0), False)
            self.assertIs(board.may(0, number), False)
        for number in (64, *NOT_THERE):
            self.assertIs(service.is_open(number), False)

    def test_no_numbers(self):
        board, service = Table(SMALL_TABLE).board(12), Service()
        others = [softlode.text, board.rights_of, lambda value: board.may(value, 0), lambda value: board.may(0, value)]
        others += [service.is_open, Service, lambda value: Service(open=value), lambda value: Rota(SMALL).table(most=value)]
        for call in [call for _, call in self.calls()] + others:
            for value in NO_NUMBERS:
                with self.subTest(value=value), self.assertRaisesRegex(TypeError, "must be an int, not "):
                    call(value)

    def test_ints_of_other_types(self):
        class Right(enum.IntEnum):
            READ = 0

        class Minute:
            def __index__(self):
                return 3

        self.assertEqual(Rota(SMALL).may(Right.READ, Right.READ, Minute()), Yes(0))

    def test_kept(self):
        """Numbers that are kept must fit, since they are read again."""
        for now in (-1, 2**32, 2**64):
            with self.assertRaises(ValueError):
                Service(now=now)
        for number in (-1, 2**64):
            with self.assertRaises(ValueError):
                Service(open=number)
            with self.assertRaises(ValueError):
                Rota(SMALL).table(most=number)
        service = Service(2**32 - 1, 2**64 - 1)
        self.assertEqual((service.now, service.open_set), (2**32 - 1, 2**64 - 1))


class Bytes(Case):
    def test_counts(self):
        rota, table = Rota(WEEK), Table(WEEK_TABLE)
        names = "cycle hours volunteers rights roles volunteer_rows right_rows format".split()
        self.assertEqual([getattr(rota, name) for name in names], [10080, 12, 20, 10, 6, 41, 15, 1])
        names = "cycle volunteers rights roles derived rows".split()
        self.assertEqual([getattr(table, name) for name in names], [10080, 20, 10, 6, 23, 239])
        for lent, name in ((rota, "format"), (table, "rows"), (rota, "other")):
            with self.assertRaises(AttributeError):
                setattr(lent, name, 1)

    def test_any_buffer(self):
        buffers = [bytearray(SMALL), memoryview(SMALL), array.array("B", SMALL), memoryview(bytes(reversed(SMALL)))[::-1]]
        for data in buffers:
            self.assertEqual(Rota(data), Rota(SMALL))
            self.assertIs(type(bytes(Rota(data))), bytes)
        for data in (54, "rota", list(SMALL), None, Rota(SMALL)):
            for kind in (Rota, Table):
                with self.assertRaises(TypeError):
                    kind(data)
        for kind, number in ((Rota, 1), (Table, 21)):
            self.refused(number, kind, b"")

    def test_copied(self):
        data = bytearray(SMALL)
        rota = Rota(data)
        data[:] = bytes(len(data))
        self.assertEqual(bytes(rota), SMALL)
        self.assertEqual(rota.may(0, 0, 3), Yes(0))
        data.append(0)  # which a buffer that is still lent would not allow

    def test_equality(self):
        rota, table = Rota(SMALL), Table(SMALL_TABLE)
        self.assertEqual({rota: 1}[Rota(bytearray(SMALL))], 1)
        self.assertNotEqual(rota, Rota(WEEK))
        self.assertNotEqual(rota, table)
        self.assertNotEqual(rota, SMALL)
        for lent in (rota, table):
            for again in (pickle.loads(pickle.dumps(lent)), copy.copy(lent), copy.deepcopy(lent)):
                self.assertEqual((type(again), again), (type(lent), lent))

    def test_repr(self):
        counts = "cycle=10 hours=2 volunteers=2 rights=1 roles=1 volunteer_rows=2 right_rows=1 format=1"
        self.assertEqual(repr(Rota(SMALL)), f"<Rota {counts}, 54 bytes>")
        self.assertEqual(repr(Table(SMALL_TABLE)), "<Table cycle=10 volunteers=2 rights=1 roles=1 derived=3 rows=8, 195 bytes>")


class Small(Case):
    """The worked minutes of the small rota S, on the rota and on its table."""

    def setUp(self):
        self.rota, self.table = Rota(SMALL), Table(SMALL_TABLE)
        self.both = self.rota, self.table

    def test_worked_minutes(self):
        for lent in self.both:
            self.assertEqual(lent.may(0, 0, 3), Yes(0))
            self.assertIsNone(lent.may(0, 0, 4))
            self.assertEqual([lent.may(volunteer, 0, 12) for volunteer in (0, 1)], [Yes(0), Yes(0)])
            self.assertEqual(lent.may(1, 0, 36), Yes(0))
            for minute, volunteer in itertools.product((37, 40), (0, 1)):
                self.assertIsNone(lent.may(volunteer, 0, minute))

    def test_worked_calls(self):
        for lent in self.both:
            service = Service()
            self.refused(43, service.open, lent, 1)
            self.assertIsNone(service.open(lent, 0))
            self.assertEqual(service.open_volunteers(), {0})
            self.assertEqual(service.ask(lent, 0, 0), Yes(0))
            self.assertEqual(service.advance(lent, 4), 1)
            self.assertEqual(service, Service(now=4))
            service = Service(now=1)
            service.open(lent, 0)
            self.assertEqual(service.advance(lent, 11), 1)
            service.open(lent, 0)
            self.assertIsNone(service.close(lent, 0))
            self.assertEqual(service, Service(now=11))
            self.assertEqual(service.advance(lent, LAST_MINUTE), 0)
            self.refused(33, service.advance, lent, LAST_MINUTE + 1)
            self.assertEqual(service, Service(now=LAST_MINUTE))

    def test_yes_is_true(self):
        yes = self.rota.may(0, 0, 3)
        self.assertEqual((yes.role, bool(yes), bool(Yes(0)), bool(Use(0))), (0, True, True, True))
        use = self.table.next_use(0, 0, 0)
        self.assertEqual((use, use.minute, bool(use)), (Use(0), 0, True))
        for answer in (yes, use):
            self.assertNotEqual(answer, 0)
            self.assertEqual(pickle.loads(pickle.dumps(answer)), answer)
            with self.assertRaises(AttributeError):
                answer.role = answer.minute = 1

    def test_table(self):
        self.assertEqual(bytes(self.rota.table()), SMALL_TABLE)
        self.assertEqual(self.rota.table_size(), (3, 8, 195))
        self.assertEqual(self.rota.table(most=195), self.table)
        for most in (194, 1, 0):
            self.refused(20, self.rota.table, most)

    def test_next_use(self):
        next_use = self.table.next_use
        self.assertEqual([next_use(0, 0, minute) for minute in (3, 4, 8, 17, 18)], [Use(3), Use(6), Use(10), Use(17), None])
        self.assertEqual([next_use(1, 0, minute) for minute in (0, 17, 36, 37)], [Use(12), Use(22), Use(36), None])

    def test_board(self):
        board = self.table.board(12)
        self.assertEqual((board.rows, board.rights), (1, (1, 1) + (0,) * 62))
        self.assertEqual([board.rights_of(volunteer) for volunteer in (0, 1, 2)], [{0}, {0}, set()])
        self.assertIs(board.may(1, 0), True)
        self.assertIs(self.table.board(4).may(0, 0), False)
        self.assertEqual(board, self.table.board(13))
        self.assertNotEqual(board, self.table.board(14))

    def test_page(self):
        questions = [(0, 0, 3), (0, 0, 4), (2, 0, 3), (0, 1, 3), (0, 0, LAST_MINUTE + 1), (1, 0, 36)]
        for lent in self.both:
            page = lent.page(iter(questions))
            self.assertEqual(len(page), 6)
            for place, question in enumerate(questions):
                self.assertEqual(outcome(page.__getitem__, place), outcome(lent.may, *question))
            self.assertEqual({place: refusal.number for place, refusal in page.refusals.items()}, {2: 34, 3: 35, 4: 33})
            self.assertEqual((list(page[:2]), list(page[5:]), page[-1]), ([Yes(0), None], [Yes(0)], Yes(0)))
            self.assertEqual(page[:2].refusals, {})
            self.assertEqual({page: 1}[self.rota.page(questions)], 1)
            self.assertNotEqual(page, page[:5])
            self.assertNotEqual(page[:2], [Yes(0), None])
            with self.assertRaisesRegex(TypeError, "neither true nor false"):
                bool(page)
            self.refused(34, list, page)
            with self.assertRaises(IndexError):
                page[6]
            self.assertEqual(repr(page[:3]), "Page([Yes(role=0), None, Refusal(34)])")
            self.assertEqual(list(lent.page([])), [])
            self.assertEqual(len(lent.page([(0, 0, 3)] * 256)), 256)
            self.refused(51, lent.page, itertools.repeat((0, 0, 3)))
            for question in ((0, 0), (0, 0, 3, 0)):
                with self.assertRaises(ValueError):
                    lent.page([question])

    def test_tidy(self):
        """What two coordinators send with rows in another order becomes the same."""
        other = Rota(SMALL[:45] + SMALL[48:51] + SMALL[45:48] + SMALL[51:])
        tidy = self.rota.tidy()
        self.assertNotEqual(other, self.rota)
        self.assertEqual((other.tidy(), tidy.tidy(), tidy.format), (tidy, tidy, 3))
        self.assertEqual(tidy.table(), self.table)
        twice = edited(SMALL, 8, 3)[:51] + SMALL[45:48] + SMALL[51:]
        self.assertEqual((len(twice), Rota(twice).tidy()), (57, tidy))


class Records(Case):
    def test_stored(self):
        service = Service(now=12, open=2**63 + 3)
        self.assertEqual((service.now, service.open_set, service.open_volunteers()), (12, 2**63 + 3, {0, 1, 63}))
        self.assertEqual(service.as_dict(), {"now": 12, "open": 2**63 + 3})
        self.assertEqual(repr(service), "Service(now=12, open=0x8000000000000003)")
        stored = Service(**json.loads(json.dumps(service.as_dict())))
        for again in (stored, eval(repr(service)), pickle.loads(pickle.dumps(service)), copy.copy(service)):
            self.assertEqual(again, service)
        self.assertNotEqual(service, Service(now=12, open=3))
        self.assertNotEqual(service, Service(now=11, open=2**63 + 3))
        self.assertNotEqual(service, (12, 2**63 + 3))
        with self.assertRaises(TypeError):
            hash(service)
        with self.assertRaises(AttributeError):
            service.now = 13

    def test_copy_is_another_record(self):
        service = Service()
        other = copy.deepcopy(service)
        other.advance(Rota(SMALL), 4)
        self.assertEqual((service.now, other.now), (0, 4))

    def test_unfit(self):
        for lent in (Rota(SMALL), Table(SMALL_TABLE)):
            for service in (Service(LAST_MINUTE + 1), Service(open=4)):
                before = service.as_dict()
                self.refused(40, service.advance, lent, LAST_MINUTE)
                self.refused(40, service.open, lent, 0)
                self.refused(40, service.close, lent, 0)
                self.refused(40, service.ask, lent, 0, 0)
                self.assertEqual(service.as_dict(), before)

    def test_lent(self):
        for lent in (SMALL, None, Service(), "rota"):
            for call, numbers in (("advance", 1), ("open", 1), ("close", 1), ("ask", 2)):
                with self.assertRaisesRegex(TypeError, "a Rota or a Table"):
                    getattr(Service(open=1), call)(lent, *[0] * numbers)

    def test_threads(self):
        """Calls of threads that share a record come one after the other."""
        service, lent, call = Service(open=1), Rota(SMALL), softlode._Lent._call
        inside, most, told, together = [], [], [], threading.Barrier(4)

        def slow(*arguments, **others):
            inside.append(arguments)
            most.append(len(inside))
            time.sleep(0.01)
            inside.pop()
            return call(*arguments, **others)

        def run(name, *numbers):
            together.wait(10)
            told.append((name, outcome(getattr(service, name), lent, *numbers)))

        calls = [("advance", 0), ("open", 1), ("close", 1), ("ask", 0, 0)]
        with mock.patch.object(softlode._Lent, "_call", slow):
            threads = [threading.Thread(target=run, args=numbers) for numbers in calls]
            for thread in threads:
                thread.start()
            for thread in threads:
                thread.join()
        self.assertEqual(most, [1] * 4)
        expected = {"advance": ("given", 0), "open": ("refused", 43), "close": ("refused", 44), "ask": ("given", Yes(0))}
        self.assertEqual(dict(told), expected)
        self.assertEqual(service, Service(open=1))


class Calendar(Case):
    def test_dates(self):
        self.assertEqual(softlode.date(0), DateTime(2001, 1, 1, 0, 0, 0))
        self.assertEqual(softlode.date(1661760), DateTime(year=2004, month=2, day=29, weekday=6, hour=0, minute=0))
        self.assertEqual(str(softlode.date(1661760)), "Sun 2004-02-29 00:00")
        self.assertEqual(str(softlode.date(LAST_MINUTE)), "Sun 2400-12-31 23:59")
        self.refused(33, softlode.date, LAST_MINUTE + 1)
        self.assertEqual(softlode.minute(2004, 2, 29), 1661760)
        self.assertEqual(softlode.minute(2400, 12, 31, 23, 59), LAST_MINUTE)
        for parts in ((2000, 12, 31), (2401, 1, 1), (2023, 2, 29), (2024, 13, 1), (2024, 0, 1), (2024, 1, 1, 24), (2024, 1, 1, 0, 60)):
            self.refused(50, softlode.minute, *parts)

    def test_datetimes(self):
        """Python's own calendar agrees, and each weekday is its."""
        start, chance = datetime.datetime(2001, 1, 1), random.Random(2001)
        for minute in [0, LAST_MINUTE, *(chance.randrange(LAST_MINUTE + 1) for _ in range(2000))]:
            clock = start + datetime.timedelta(minutes=minute)
            self.assertEqual(softlode.to_datetime(minute), clock)
            self.assertEqual(softlode.from_datetime(clock), minute)
            self.assertEqual(softlode.date(minute).weekday, clock.weekday())

    def test_clocks(self):
        clock = datetime.datetime(2024, 2, 26, 9, 0, 59, 999999)
        self.assertEqual(softlode.from_datetime(clock), softlode.minute(2024, 2, 26, 9, 0))
        self.assertEqual(softlode.from_datetime(clock.replace(fold=1)), softlode.from_datetime(clock))
        self.assertIsNone(softlode.to_datetime(0).tzinfo)
        for zone in (datetime.timezone.utc, datetime.timezone(datetime.timedelta(hours=1))):
            with self.assertRaisesRegex(ValueError, "one clock without summer time"):
                softlode.from_datetime(clock.replace(tzinfo=zone))
        for value in (clock.date(), clock.time(), 0, "2024-02-26", None):
            with self.assertRaises(TypeError):
                softlode.from_datetime(value)
        self.refused(50, softlode.from_datetime, datetime.datetime(2000, 12, 31, 23, 59))
        self.refused(50, softlode.from_datetime, datetime.datetime(2401, 1, 1))


class Week(Case):
    """The weekly rota of data/week.txt."""

    def setUp(self):
        self.rota, self.table = Rota(WEEK), Table(WEEK_TABLE)

    def test_table(self):
        self.assertEqual(bytes(self.rota.table()), WEEK_TABLE)
        self.assertEqual(self.rota.table_size(), (23, 239, 4231))
        self.assertEqual(self.rota.tidy().table(), self.table)

    def test_examples(self):
        """Those of the module's documentation, which are those of README.md."""
        before = os.getcwd()
        os.chdir(DATA)
        self.addCleanup(os.chdir, before)
        result = doctest.testmod(softlode, report=True)
        self.assertEqual(result.failed, 0)
        self.assertGreater(result.attempted, 20)

    def test_rota_and_table_in_step(self):
        """A list of calls, many of them refused: rota, tidy rota and table tell and leave the same."""
        chance = random.Random(7)
        lent = (self.rota, self.rota.tidy(), self.table)
        services = [Service() for _ in lent]
        monday, seen = softlode.minute(2024, 2, 26), set()
        now = monday
        for _ in range(3000):
            name = chance.choice(["advance", "open", "open", "open", "close", "ask", "ask", "may"])
            volunteer, right = chance.randrange(21), chance.randrange(11)
            if name == "advance":
                now += chance.choice([-1, 0, 1, 30, HOUR, 5 * HOUR])
                numbers = (now,)
            else:
                numbers = {"may": (volunteer, right, now), "ask": (volunteer, right)}.get(name, (volunteer,))
            if name == "may":
                told = [outcome(each.may, *numbers) for each in lent]
            else:
                told = [outcome(getattr(service, name), each, *numbers) for service, each in zip(services, lent)]
            self.assertEqual(told, [told[0]] * 3)
            self.assertEqual(services, [services[0]] * 3)
            now = max(monday, services[0].now)
            seen.add((name, *(told[0] if told[0][0] == "refused" else (bool(told[0][1]),))))
        # It has come by each of these outcomes.
        expected = {("advance", True), ("advance", False), ("advance", "refused", 41), ("open", False), ("close", False)}
        expected |= {("open", "refused", number) for number in (34, 42, 43)} | {("close", "refused", number) for number in (34, 44)}
        expected |= {("ask", True), ("ask", False)} | {("ask", "refused", number) for number in (34, 35, 44)}
        expected |= {("may", True), ("may", False), ("may", "refused", 34), ("may", "refused", 35)}
        self.assertEqual(seen, expected)

    def test_host(self):
        """A week with the rota as the hosts in C and Rust spend it, which print data/week.host."""
        stored = (DATA / "week.host").read_text().splitlines()
        # Here the area to tidy in is the module's.
        stored = [line for line in stored if not line.startswith("an area of 8 bytes to tidy in: ")]
        self.assertEqual(list(Host(self).lines()), stored)


class Host:
    """What a host prints that spends a week with the weekly rota, on the rota and on the table in step."""

    def __init__(self, case):
        self.case, self.rota, self.table = case, case.rota, case.rota.table()
        self.service, self.mirror = Service(), Service()
        self.count = dict.fromkeys("advances closed opens closes yes no refused".split(), 0)

    def call(self, name, *numbers):
        told = outcome(getattr(self.service, name), self.rota, *numbers)
        self.case.assertEqual(told, outcome(getattr(self.mirror, name), self.table, *numbers))
        self.case.assertEqual(self.service, self.mirror)
        return told

    def may(self, *question):
        self.case.assertEqual(self.rota.may(*question), self.table.may(*question))
        return self.rota.may(*question)

    def lines(self):
        rota, table, tidy = self.rota, self.table, self.rota.tidy()
        yield (
            f"rota: format {rota.format}, cycle {rota.cycle}, {rota.hours} hours, {rota.volunteers} volunteers, "
            f"{rota.rights} rights, {rota.roles} roles, {rota.volunteer_rows} + {rota.right_rows} rows"
        )
        yield f"table: {table.derived} derived roles, {table.rows} rows, {len(bytes(table))} bytes"
        yield f"tidy rota: {tidy.volunteer_rows} + {tidy.right_rows} rows, {len(bytes(tidy))} bytes, with the same table"
        monday = softlode.minute(2024, 2, 26)
        for hour in range(7 * 24):
            yield from self.hour(monday + HOUR * hour)
        wednesday = monday + 2 * DAY + 11 * HOUR
        yield from self.users(wednesday)
        yield from self.board(wednesday)
        for volunteer in range(rota.volunteers):
            yield self.page(volunteer, wednesday)
        for volunteer in range(rota.volunteers):
            yield self.next_uses(volunteer, monday + 7 * DAY)
        yield from self.refusals()
        yield (
            "{advances} advances closed {closed}; {opens} opens, {closes} closes, {yes} yes, {no} no, {refused} refused; ".format(**self.count)
            + f"at {softlode.date(self.service.now)} open {self.service.open_set:016x}"
        )
        yield "the rota and the table agree"

    def hour(self, minute):
        """Whoever holds a right comes, and asks for every right; even numbers leave at noon."""
        when, count = softlode.date(minute), self.count
        _, closed = self.call("advance", minute)
        count["advances"] += 1
        count["closed"] += closed
        if closed > 0:
            yield f"{when} {closed} closed by the hour, open {self.service.open_set:016x}"
        for volunteer in range(self.rota.volunteers):
            if self.service.is_open(volunteer):
                continue
            if self.call("open", volunteer)[0] == "refused":
                count["refused"] += 1
                continue
            count["opens"] += 1
            asked = [self.call("ask", volunteer, right)[1] for right in range(self.rota.rights)]
            count["yes"] += sum(map(bool, asked))
            count["no"] += asked.count(None)
            rights = "".join(f" {right} by {answer.role}" for right, answer in enumerate(asked) if answer)
            yield f"{when} volunteer {volunteer} opens; right by role:{rights}"
        for volunteer in range(0, self.rota.volunteers, 2) if when.hour == 12 else ():
            if self.call("close", volunteer)[0] == "refused":
                count["refused"] += 1
                continue
            count["closes"] += 1
            yield f"{when} volunteer {volunteer} closes"

    def users(self, minute):
        for right in range(self.rota.rights):
            users = "".join(f" {volunteer}" for volunteer in range(self.rota.volunteers) if self.may(volunteer, right, minute))
            yield f"{softlode.date(minute)} right {right} may be used by{users}"

    def board(self, minute):
        board = self.table.board(minute)
        yield f"{softlode.date(minute)} staff board, by {board.rows} rows of the table:"
        for volunteer in range(self.rota.volunteers):
            rights = board.rights_of(volunteer)
            for right in range(self.rota.rights):
                self.case.assertEqual(board.may(volunteer, right), bool(self.may(volunteer, right, minute)))
                self.case.assertEqual(board.may(volunteer, right), right in rights)
            if rights:
                yield f"  volunteer {volunteer} may use rights {' '.join(map(str, sorted(rights)))}"
        yield "  nobody else may use a right"

    def page(self, volunteer, minute):
        questions = [(volunteer, right, minute) for right in range(self.rota.rights)]
        page = self.rota.page(questions)
        self.case.assertEqual(page, self.table.page(questions))
        self.case.assertEqual(list(page), [self.may(*question) for question in questions])
        buttons = "".join(f" [{right}]" if answer else f" {right}" for right, answer in enumerate(page))
        return f"{softlode.date(minute)} page of volunteer {volunteer}:{buttons}"

    def next_uses(self, volunteer, minute):
        uses = [(right, self.table.next_use(volunteer, right, minute)) for right in range(self.rota.rights)]
        groups = []
        for use, rights in itertools.groupby((found for found in uses if found[1]), key=lambda found: found[1]):
            groups.append(f"{' '.join(str(right) for right, _ in rights)} on {softlode.date(use.minute)}")
        told = f"next use rights {', '.join(groups)}" if groups else "use no right any more"
        return f"{softlode.date(minute)} volunteer {volunteer} can {told}"

    def refusals(self):
        data, table = bytes(self.rota), bytes(self.table)
        calls = {
            "the rota without its last byte": lambda: Rota(data[:-1]),
            "the rota with another first byte": lambda: Rota(edited(data, 0, data[0] ^ 255)),
            "the rota as a tidy one": lambda: Rota(edited(data, 0, 3)),
            "an area of 8 bytes": lambda: self.rota.table(most=8),
            "the table without its last byte": lambda: Table(table[:-1]),
            "the next use by volunteer 256": lambda: self.table.next_use(256, 0, 0),
            "the board of minute 210379680": lambda: self.table.board(210379680),
            "a page of 257 questions": lambda: self.table.page([(0, 0, 0)] * 257),
            "an open of volunteer 256": lambda: self.service.open(self.rota, 256),
            "an advance to minute 0": lambda: self.service.advance(self.rota, 0),
            "29 February 2023": lambda: softlode.minute(2023, 2, 29, 0, 0),
        }
        for name, call in calls.items():
            try:
                call()
                yield f"{name}: accepted"
            except Refusal as refusal:
                yield f"{name}: {refusal}"


def loaded_library():
    """The file of the library that this process has loaded."""
    symbol = ctypes.cast(softlode._library.softlode_version, ctypes.c_void_p).value
    for line in pathlib.Path("/proc/self/maps").read_text().splitlines():
        first, last = (int(end, 16) for end in line.split(None, 1)[0].split("-"))
        if first <= symbol < last:
            return line.split(None, 5)[5]
    raise AssertionError("no library has the function")


class Loading(Case):
    """Where the library is found, by copies of the module in other folders."""

    def setUp(self):
        folder = tempfile.TemporaryDirectory()
        self.addCleanup(folder.cleanup)
        self.folder = pathlib.Path(folder.name).resolve()
        self.library = loaded_library()

    def put(self, name, source):
        target = self.folder / name
        target.parent.mkdir(parents=True, exist_ok=True)
        shutil.copyfile(source, target)
        return target

    def run_python(self, module, code, **environment):
        """Runs code that finds the module beside itself, with these variables and no other of the kind."""
        own = {name: value for name, value in os.environ.items() if not name.startswith(("SOFTLODE_", "LD_LIBRARY", "PYTHON"))}
        command = [sys.executable, "-W", "error", "-c", code]
        environment = {**own, "PYTHONPATH": str(module.parent), "PYTHONDONTWRITEBYTECODE": "1", **environment}
        return subprocess.run(
            command, env=environment, cwd=str(self.folder), stdout=subprocess.PIPE, stderr=subprocess.PIPE, universal_newlines=True, timeout=60
        )

    def found(self, module, **environment):
        ran = self.run_python(module, "import softlode; print(softlode.LIBRARY)", **environment)
        return ran.stdout.strip() or ran.stderr

    def test_order(self):
        installed = self.put("usr/share/softlode/python/softlode.py", softlode.__file__)
        built = self.put("usr/share/softlode/target/lib/libsoftlode.so.1", self.library)
        self.assertEqual(self.found(installed), str(built))
        beside = self.put("usr/lib/libsoftlode.so.1", self.library)
        self.assertEqual(self.found(installed), str(beside))
        named = self.put("other/named.so", self.library)
        self.assertEqual(self.found(installed, SOFTLODE_LIBRARY=str(named)), str(named))
        self.assertEqual(self.found(installed, SOFTLODE_LIBRARY="other/named.so"), str(named))
        self.assertEqual(self.found(installed, SOFTLODE_LIBRARY=""), str(beside))
        # By a link to it, and in no folder of an installation.
        link = self.folder / "links" / "softlode.py"
        link.parent.mkdir()
        link.symlink_to(installed)
        self.assertEqual(self.found(link), str(beside))
        alone = self.put("usr/alone/own/python/softlode.py", softlode.__file__)
        self.assertEqual(self.found(alone, LD_LIBRARY_PATH=str(beside.parent)), "libsoftlode.so.1")

    def test_none(self):
        module = self.put("usr/share/softlode/python/softlode.py", softlode.__file__)
        told = self.found(module)
        self.assertIn("ImportError: softlode: cannot load libsoftlode.so.1", told)
        self.assertIn(str(self.folder / "usr/lib/libsoftlode.so.1"), told)
        self.assertIn(str(self.folder / "usr/share/softlode/target/lib/libsoftlode.so.1"), told)
        self.assertIn("Run `make`", told)
        # A file that is named is not passed over, and neither is one that is no library.
        self.put("usr/lib/libsoftlode.so.1", self.library)
        told = self.found(module, SOFTLODE_LIBRARY="nowhere.so")
        self.assertIn(f"ImportError: softlode: cannot load {self.folder / 'nowhere.so'}", told)
        self.assertIn("SOFTLODE_LIBRARY names", told)
        self.put("usr/lib/libsoftlode.so.1", softlode.__file__)
        self.assertIn(f"ImportError: softlode: cannot load {self.folder / 'usr/lib/libsoftlode.so.1'}", self.found(module))

    def load(self, wanted=softlode.VERSION, **others):
        """Loads the module once more, as written for a version, with other functions in the place of some."""
        library = ctypes.CDLL(self.library)

        class Other:
            def __init__(self, name):
                pass

            def __getattr__(self, name):
                function = others.get(name, getattr(library, name))
                if function is None:
                    raise AttributeError(name)
                return function

        source = pathlib.Path(softlode.__file__).read_text()
        source = re.sub(r"^VERSION = \d+$", f"VERSION = {wanted}", source, count=1, flags=re.M)
        module = ModuleType("softlode_again")
        module.__file__ = softlode.__file__
        with mock.patch("ctypes.CDLL", Other), mock.patch.dict(sys.modules, softlode_again=module):
            exec(compile(source, softlode.__file__, "exec"), vars(module))
        self.assertEqual(module.VERSION, wanted)

    def test_versions(self):
        """The same major version, and no older."""
        for found in (1002003, 1002004, 1003000, 1999999):
            self.load(1002003, softlode_version=mock.Mock(return_value=found))
        for found, shown in ((0, "0.0.0"), (999999, "0.999.999"), (1002002, "1.2.2"), (1001999, "1.1.999"), (2002003, "2.2.3")):
            with self.assertRaisesRegex(ImportError, f"has version {shown}, and 1.2.3 or a later one"):
                self.load(1002003, softlode_version=mock.Mock(return_value=found))

    def test_functions(self):
        self.load()
        for name in softlode._FUNCTIONS:
            with self.assertRaisesRegex(ImportError, f"has no function {name}"):
                self.load(**{name: None})

    def test_stack(self):
        """A thread of 2 MiB has stack enough for the rewriting of a rota with all counts at their limits."""
        module = pathlib.Path(softlode.__file__)
        self.assertEqual(len(large_rota()), softlode.LARGEST_ROTA)
        (self.folder / "large.rota").write_bytes(large_rota())
        code = """
import pathlib, threading, softlode
rota = softlode.Rota(pathlib.Path("large.rota").read_bytes())
def run():
    print(rota.table_size() == (rota.table().derived, rota.table().rows, len(bytes(rota.table()))))
threading.stack_size(2 << 20)
thread = threading.Thread(target=run)
thread.start()
thread.join()
"""
        ran = self.run_python(module, code, SOFTLODE_LIBRARY=self.library)
        self.assertEqual((ran.returncode, ran.stdout, ran.stderr), (0, "True\n", ""))


def large_rota():
    """The longest rota: everything at its limit."""
    chance = random.Random(32)

    def word(number, length):
        return number.to_bytes(length, "little")

    def rows():
        return bytes(byte for _ in range(512) for byte in (chance.randrange(64), chance.randrange(32), chance.randrange(32)))

    data = word(1, 2) + word(40320, 2) + bytes([32, 64, 64, 32]) + word(512, 2) * 2
    for _ in range(32):
        begin, end = sorted(chance.sample(range(LAST_MINUTE), 2))
        cuts = sorted(chance.sample(range(40320), 16))
        data += word(begin, 4) + word(end, 4) + word(8, 2)
        data += b"".join(word(cuts[i], 2) + word(cuts[i + 1] - cuts[i], 2) for i in range(0, 16, 2))
    return data + bytes([255] * 32) + rows() + rows()


if __name__ == "__main__":
    unittest.main()
