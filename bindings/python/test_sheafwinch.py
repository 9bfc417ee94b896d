"""The bench of document 01, the refusals, and one of every other call."""

import unittest
from dataclasses import replace

import sheafwinch as sw
from sheafwinch import Capacities, Field, Instalment, Mismatch, Pair, Primitive, Region, Side, Table

ROOM = Capacities(entries=24, fields=8, bounds=80, visited=16, pending=16, equals=4)
MOST = 0xFFFFFFFF
# __functor, x, y
NAMES = sw.Names(b"\x03\0\0\0\x09\0\x0a\0\x0b\0__functorxy")


def bench_table(room=ROOM):
    t = Table(room, names=3, functor=0)
    for primitive in (Primitive.INT, Primitive.NUMBER, Primitive.FLOAT, Primitive.STRING):
        t.make_primitive(primitive)
    t.make_variable()
    t.make_variable()
    t.make_union(1, 0)
    t.make_neg(0)
    t.make_attrset([Field(1, 0)])
    t.make_attrset([Field(1, 1)])
    t.make_attrset([Field(1, 0), Field(2, 3)])
    t.make_lambda(0, 3)
    t.make_attrset([], open=True)
    t.make_attrset([Field(0, 4)])
    assert t.make_inter(4, 3) == 14
    return t


def opened(t, sub, sup):
    return t.open(sub, sup, MOST)


def yes(steps):
    return Instalment(sw.Yes(), steps)


def more(steps):
    return Instalment(sw.More(), steps)


def records(t, region):
    return [t.record(region, n) for n in range(t.count(region))]


class Bench(unittest.TestCase):
    def setUp(self):
        self.t = bench_table()

    def test_b1(self):
        self.assertEqual(opened(self.t, 0, 0), yes(1))
        self.assertEqual(self.t.count(Region.VISITED), 0)

    def test_b2_plain_again_and_held_again(self):
        t = self.t
        self.assertEqual(opened(t, 1, 0).answer, Mismatch(1, 0))
        self.assertEqual(opened(t, 1, 0), yes(1))
        before = t.words()
        for again in (t.open, t.open_equal):
            with self.assertRaises(sw.Unopened) as refused:
                again(1, 0, MOST, held=True)
            e = refused.exception
            self.assertEqual((type(e.refusal), e.number, e.refusal.failure, e.steps), (sw.Broken, 8, Mismatch(1, 0), 0))
            self.assertEqual(str(e), "BROKEN: mismatch (1, 0)")
        self.assertEqual(t.words(), before)
        self.assertEqual(t.broken(), Mismatch(1, 0))

    def test_b3_whole(self):
        self.assertEqual(opened(self.t, 1, 6), Instalment(Mismatch(1, 0), 3))

    def test_b3_with_budgets_0_2_1(self):
        t = self.t
        self.assertEqual(t.open(1, 6, 0), more(0))
        self.assertEqual(t.work(2), more(2))
        self.assertTrue(t.asked())
        self.assertEqual(records(t, Region.PENDING), [Pair(1, 0)])
        self.assertEqual(t.work(1), Instalment(Mismatch(1, 0), 1))
        self.assertFalse(t.asked())
        whole = bench_table()
        opened(whole, 1, 6)
        self.assertEqual(t, whole)

    def test_b3_stored_and_loaded_between(self):
        self.assertEqual(self.t.open(1, 6, 2), more(2))
        later = Table.from_words(list(self.t.words()))
        self.assertEqual(later.work(1), self.t.work(1))
        self.assertEqual(later, self.t)

    def test_b4(self):
        self.assertEqual(opened(self.t, 2, 6), yes(2))

    def test_b5(self):
        self.assertEqual(opened(self.t, 8, 10).answer, sw.MissingField(8, 10, 2))
        self.assertEqual(records(self.t, Region.VISITED), [Pair(8, 10)])

    def test_b6(self):
        self.assertEqual([opened(self.t, *pair) for pair in ((0, 4), (4, 5), (5, 1))], [yes(1), yes(2), yes(2)])
        bounds = [(4, Side.LOWER, 0), (4, Side.UPPER, 5), (5, Side.LOWER, 0), (5, Side.UPPER, 1)]
        self.assertEqual(records(self.t, Region.BOUNDS), [sw.Bound(*b) for b in bounds])

    def test_b7(self):
        self.assertEqual(opened(self.t, 3, 7).answer, sw.Yes())

    def test_b8(self):
        self.assertEqual(opened(self.t, 1, 7).answer, Mismatch(1, 7))

    def test_b9(self):
        self.assertEqual(opened(self.t, 12, 11).answer, Mismatch(12, 11))

    def test_b10(self):
        self.assertEqual(opened(self.t, 13, 11), yes(2))
        self.assertEqual(self.t.count(Region.ENTRIES), 17)

    def test_b11(self):
        self.assertEqual(opened(self.t, 14, 0).answer, Mismatch(14, 0))
        self.assertEqual(self.t.count(Region.ENTRIES), 15)

    def test_b12(self):
        self.assertEqual(opened(self.t, 14, 3), yes(2))
        self.assertEqual(self.t.entry(16), sw.Union(3, 15))

    def test_no_room_in_20_entries(self):
        t = bench_table(replace(ROOM, entries=20))
        self.assertEqual(opened(t, 13, 4).answer, sw.Yes())
        for steps, call, *arguments in ((4, t.open, 13, 11, MOST), (0, t.work, MOST)):
            with self.assertRaises(sw.NoRoom) as refused:
                call(*arguments)
            e = refused.exception
            self.assertEqual((e.number, e.region, e.steps, str(e)), (5, Region.ENTRIES, steps, "NO ROOM(1)"))
        self.assertEqual(t.count(Region.ENTRIES), 19)
        self.assertTrue(t.asked())
        t.abandon()
        self.assertFalse(t.asked())

    def test_bounds_32_and_33(self):
        for many, more in ((32, 0), (33, 1)):
            t = Table(replace(ROOM, entries=40, bounds=40))
            variable = t.make_variable()
            for _ in range(many):
                t.put_bound(variable, Side.LOWER, t.make_primitive(Primitive.INT))
            t.put_bound(variable, Side.LOWER, 1)
            self.assertEqual(t.count(Region.BOUNDS), many + more)


class Openings(unittest.TestCase):
    def unopened(self, t, refusal, sub, sup, calls=("open", "open_equal"), held=(False, True)):
        """Refused at the opening by every call, with budgets 0 and 9, and every word is as it was. The last refusal."""
        before = t.words()
        for call in calls:
            for h in held:
                for budget in (0, 9):
                    with self.assertRaises(sw.Unopened) as raised:
                        getattr(t, call)(sub, sup, budget, held=h)
                    e = raised.exception
                    self.assertEqual((type(e.refusal), e.number, e.name), (refusal, refusal.number, refusal.name))
                    self.assertEqual((e.steps, str(e)), (0, str(e.refusal)))
                    self.assertEqual(t.words(), before)
        return e.refusal

    def test_refused(self):
        t = bench_table()
        self.unopened(t, sw.BadNumber, 15, 0)
        self.unopened(t, sw.BadNumber, 0, 15)
        self.assertEqual(opened(t, 1, 0).answer, Mismatch(1, 0))
        # 8 is before 2
        self.assertEqual(self.unopened(t, sw.Broken, 15, 0, held=(True,)).failure, Mismatch(1, 0))
        self.assertEqual(t.open(1, 6, 0), more(0))
        # 3 is before both, 1 before all
        self.unopened(t, sw.Busy, 15, 0)
        t._array[0] = 2
        self.unopened(t, sw.BadTable, 15, 0)

    def test_refused_for_room(self):
        t = bench_table(replace(ROOM, pending=0))
        self.assertEqual(self.unopened(t, sw.NoRoom, 0, 1).region, Region.PENDING)
        t = bench_table(replace(ROOM, pending=1, equals=0))
        self.assertEqual(self.unopened(t, sw.NoRoom, 0, 1, calls=("open_equal",)).region, Region.PENDING)
        t = bench_table(replace(ROOM, equals=0))
        self.assertEqual(self.unopened(t, sw.NoRoom, 0, 1, calls=("open_equal",)).region, Region.EQUALS)
        # an entry with itself is not recorded
        self.assertEqual(t.open_equal(0, 0, 9), yes(2))

    def test_a_step_refused_is_not_unopened(self):
        # the one pending record is free again at the step, which needs two
        t = bench_table(replace(ROOM, pending=1))
        with self.assertRaises(sw.NoRoom) as raised:
            t.open(1, 6, 9)
        self.assertEqual((raised.exception.region, raised.exception.steps), (Region.PENDING, 0))
        self.assertNotIsInstance(raised.exception, sw.Unopened)
        self.assertTrue(t.asked())
        self.assertEqual(records(t, Region.PENDING), [Pair(1, 6)])

    def test_held_is_plain_where_none_failed(self):
        before = bench_table()
        for call in ("open", "open_equal"):
            for sub, sup in ((a, b) for a in range(15) for b in range(15)):
                plain, held = before.copy(), before.copy()
                self.assertEqual(getattr(held, call)(sub, sup, 9, held=True), getattr(plain, call)(sub, sup, 9))
                self.assertEqual(held, plain)

    def told(self, call, *arguments):
        """What a call answers, or the refusal of its step."""
        try:
            return call(*arguments)
        except sw.NoRoom as e:
            return sw.NoRoom, e.region, e.steps

    def test_opened_with_0_and_worked_is_opened(self):
        before = bench_table(replace(ROOM, entries=20, visited=9, pending=3, equals=1))
        self.assertEqual(opened(before, 13, 4).answer, sw.Yes())
        met = set()
        for call in ("open", "open_equal"):
            for held in (False, True):
                for sub, sup, budget in ((a, b, n) for a in range(15) for b in range(15) for n in (0, 1, 2, MOST)):
                    once, twice = before.copy(), before.copy()
                    told = self.told(getattr(once, call), sub, sup, budget, held)
                    self.assertEqual(getattr(twice, call)(sub, sup, 0, held), more(0))
                    self.assertEqual(self.told(twice.work, budget), told)
                    self.assertEqual(twice, once)
                    met.add(type(told.answer) if isinstance(told, Instalment) else told[0])
        self.assertEqual(met, {sw.Yes, sw.More, Mismatch, sw.MissingField, sw.NoRoom})


class Refusals(unittest.TestCase):
    def refused(self, t, refusal, call, *arguments):
        before = t.words()
        with self.assertRaises(refusal) as raised:
            call(*arguments)
        self.assertEqual(raised.exception.steps, 0)
        self.assertEqual(t.words(), before)

    def test_every_word_is_left(self):
        t = bench_table()
        self.refused(t, sw.BadNumber, t.make_list, 15)
        self.refused(t, sw.BadNumber, t.make_primitive, 8)
        self.refused(t, sw.BadNumber, t.put_bound, 4, 2, 0)
        self.refused(t, sw.BadNumber, t.entry, 15)
        self.refused(t, sw.BadNumber, t.record, Region.BOUNDS, 0)
        self.refused(t, sw.BadNumber, t.record, 7, 0)
        self.refused(t, sw.Idle, t.work, 1)
        self.refused(t, sw.Idle, t.abandon)
        self.refused(t, sw.BadFields, t.make_attrset, [Field(2, 0), Field(1, 0)])
        self.refused(t, sw.BadFields, t.make_attrset, [Field(3, 0)])
        self.refused(t, sw.BadNumber, t.make_attrset, [], False, 15)
        self.refused(t, sw.Level, t.exit)
        self.refused(t, sw.NotAVariable, t.put_bound, 0, Side.UPPER, 1)
        self.refused(t, sw.NotAVariable, t.set_level, 0, 1)
        t.open(1, 6, 0)
        self.refused(t, sw.Busy, t.make_variable)

    def test_start_and_words(self):
        for room, names, functor in ((ROOM, 4097, None), (ROOM, 3, 3), (ROOM, 3, MOST), (replace(ROOM, equals=MOST), 3, None)):
            with self.assertRaises(sw.BadCapacity):
                Table(room, names, functor)
        words = bench_table().words()
        self.assertTrue(sw.check(words))
        words[0] = 2
        for unfit in (words, []):
            self.assertFalse(sw.check(unfit))
            with self.assertRaises(sw.BadTable):
                Table.from_words(unfit)
        self.assertEqual(len(Table(Capacities(*Capacities.MOST), 4096, 4095).words()), 667675)

    def test_no_room_and_too_deep(self):
        t = bench_table(replace(ROOM, entries=15))
        self.refused(t, sw.NoRoom, t.make_variable)
        t = bench_table(replace(ROOM, fields=5))
        with self.assertRaises(sw.NoRoom) as refused:
            t.make_attrset([Field(1, 0)])
        self.assertEqual(refused.exception.region, Region.FIELDS)
        t = Table(replace(ROOM, entries=20))
        n = t.make_variable()
        with self.assertRaises(sw.TooDeep):
            while True:
                n = t.make_union(n, n)
        self.assertEqual(n, 9)

    def test_no_word(self):
        t = bench_table()
        for n in (-1, 1 << 32):
            with self.assertRaises(ValueError):
                t.make_list(n)
            with self.assertRaises(ValueError):
                t.work(n)
            with self.assertRaises(ValueError):
                t.open(0, 1, n)

    def test_numbers(self):
        numbers = [r.number for r in sw.Refusal.__subclasses__() if r is not sw.Unopened]
        self.assertEqual(numbers, list(range(1, 13)))


class Reads(unittest.TestCase):
    def test_every_kind(self):
        t = bench_table()
        t.enter()
        self.assertEqual(t.level(), 1)
        variable = t.make_variable()
        self.assertEqual(t.entry(variable), sw.Variable(1))
        t.set_level(variable, 7)
        self.assertEqual(t.entry(variable), sw.Variable(7))
        t.exit()
        t.mark(variable)
        self.assertEqual(t.record(Region.ENTRIES, variable), sw.EntryRecord(0, 7, 0, 0, 1, 1, 0))
        listed = t.make_list(variable)
        self.assertEqual(t.entry(listed), sw.List(variable))
        named = t.make_named(listed, 99)
        self.assertEqual(t.entry(named), sw.Named(listed, 99))
        attrset = t.make_attrset([Field(1, 0, True)], open=True, dynamic=3)
        self.assertEqual(t.entry(attrset), sw.Attrset(5, 1, True, 3))
        self.assertEqual(t.record(Region.FIELDS, 5), Field(1, 0, True))
        self.assertEqual(t.entry(12), sw.Attrset(0, 0, True, None))
        self.assertEqual(t.entry(0), sw.PrimitiveEntry(Primitive.INT))
        self.assertEqual(t.entry(7), sw.Neg(0))
        self.assertEqual(t.entry(11), sw.Lambda(0, 3))
        self.assertEqual(t.entry(14), sw.Inter(4, 3))
        self.assertEqual(t.open_equal(0, 2, 0), more(0))
        self.assertEqual(records(t, Region.EQUALS), [Pair(0, 2)])
        self.assertTrue(t.disjoint(0, 3))
        self.assertFalse(t.disjoint(0, 1))
        self.assertEqual((t.names(), t.capacity(Region.ENTRIES)), (3, 24))

    def test_names(self):
        NAMES.check()
        NAMES.check_name(2)
        self.assertEqual(NAMES.count(), 3)
        self.assertEqual([NAMES.show(n) for n in range(3)], [b"__functor", b"x", b"y"])
        self.assertEqual([NAMES.compare(*p) for p in ((1, 2), (2, 2), (2, 0))], [-1, 0, 1])
        self.assertEqual((NAMES.find(b"y"), NAMES.find(b"z")), (2, None))
        for call in (NAMES.check_name, NAMES.show):
            with self.assertRaises(sw.BadNumber):
                call(3)
        for unfit in (NAMES.list[1:], b""):
            with self.assertRaises(sw.BadNames):
                sw.Names(unfit).check()

    def test_operators(self):
        add, sub, mul, div = sw.Operator
        self.assertEqual(sw.resolve(add, Primitive.INT, Primitive.FLOAT), Primitive.FLOAT)
        self.assertIsNone(sw.resolve(sub, Primitive.INT, Primitive.STRING))
        self.assertEqual(sw.resolve(add, Primitive.PATH, Primitive.STRING), Primitive.PATH)
        self.assertEqual(sw.from_left(add, Primitive.STRING), Primitive.STRING)
        self.assertIsNone(sw.from_left(mul, Primitive.INT))
        self.assertEqual(sw.at_once(div), Primitive.NUMBER)
        self.assertIsNone(sw.at_once(add))
        with self.assertRaises(sw.BadNumber):
            sw.at_once(4)

    def test_told_in_words(self):
        self.assertEqual(str(Instalment(sw.MissingField(8, 10, 2), 1)), "missing field 2 (8, 10), 1 step")
        self.assertEqual(str(Instalment(sw.More(), 2)), "MORE, 2 steps")
        self.assertEqual(str(sw.NotAVariable()), "NOT A VARIABLE")


if __name__ == "__main__":
    unittest.main()
