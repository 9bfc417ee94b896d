"""Holds stored images to what is stored with them, through bindings/python; images/format-1/README.md says what the files hold.

    replay.py FOLDER...    makes each image anew by `made`, loads it and runs `next`: every answer and every word as stored

Tells each difference with file, line and what differs; status 1 where there is one. Lines that Python cannot say are passed over, and
counted: a field list that is not whole triples or not 0/1, and a start in words of another size.
"""

import os
import sys
from array import array

sys.path.insert(0, os.path.join(os.path.dirname(os.path.abspath(__file__)), "..", "..", "bindings", "python"))
import sheafwinch as sw

KINDS = (sw.Variable, sw.PrimitiveEntry, sw.List, sw.Lambda, sw.Attrset, sw.Named, sw.Neg, sw.Inter, sw.Union)
READS = ("entry", "record", "disjoint")
OPENS = ("open", "open_equal")
passed_over = 0


class Wrong(Exception):
    pass


class CannotSay(Exception):
    pass


def entry_values(entry):
    if isinstance(entry, sw.Attrset):
        has = entry.dynamic is not None
        return [4, entry.first, entry.count, int(entry.open), int(has), entry.dynamic if has else 0]
    return [KINDS.index(type(entry)), *map(int, vars(entry).values())]


def refusal(error):
    if isinstance(error, sw.Unopened):
        return refusal(error.refusal).replace("refused", "unopened")
    values = [int(error.region)] if isinstance(error, sw.NoRoom) else []
    if isinstance(error, sw.Broken):
        values = failure(error.failure)
        values += [0] * (4 - len(values))
    return " ".join(map(str, ["refused", error.number, *values]))


def failure(told):
    """The failure's number and values."""
    return [1, told.sub, told.sup] if isinstance(told, sw.Mismatch) else [2, told.sub, told.sup, told.name]


def worked(instalment):
    told = instalment.answer
    if isinstance(told, (sw.Yes, sw.More)):
        said = "yes" if isinstance(told, sw.Yes) else "more"
    else:
        said = " ".join(map(str, ["failed", *failure(told)]))
    return f"{said} steps {instalment.steps}"


def done(*values):
    return " ".join(["done", *(str(int(v)) for v in values if v is not None)])


class Stored:
    def __init__(self, folder):
        self.folder = folder
        self.file = self.line = self.listed = None
        self.names = sw.Names(self.read("names"))
        image = self.read("image")
        if len(image) % 4:
            raise Wrong(f"{folder}/image: {len(image)} bytes, which are no whole words")
        self.image = array("I", image)
        if sys.byteorder == "big":
            self.image.byteswap()
        self.words, self.table = array("I"), None

    def read(self, name):
        try:
            with open(os.path.join(self.folder, name), "rb") as file:
                return file.read()
        except OSError as error:
            raise Wrong(f"{self.folder}/{name}: {error.strerror}") from error

    def wrong(self, what):
        return Wrong(f"{self.folder}/{self.file}{':' + str(self.line) if self.line else ''}: {what}")

    def now(self):
        return self.words if self.table is None else self.table.words()

    def set(self, words):
        self.words, self.table = words, None

    def loaded(self):
        """The table that the words are. Refusals: 1."""
        if self.table is None:
            self.table = sw.Table.from_words(self.words)
        return self.table

    def name_call(self, name, words, further):
        if name == "check_names":
            return done(self.names.check())
        if name == "check_name":
            return done(self.names.check_name(*words))
        if name == "count_names":
            return done(self.names.count())
        if name == "compare_names":
            return done(self.names.compare(*words) + 1)
        if name == "find_name":
            return done(self.names.find(bytes(further)))
        shown, count = self.names.show(*words), self.names.count()
        at = 2 + 2 * (count + 1) + int.from_bytes(self.names.list[2 + 2 * words[0] : 4 + 2 * words[0]], "little")
        if self.names.list[at : at + len(shown)] != shown:
            raise self.wrong(f"show gives {shown}, which is not at {at}")
        return done(at, len(shown))

    def image_call(self, name, words, further):
        if name == "check":
            return done(sw.check(self.now()))
        if name == "start":
            room = sw.Capacities(*words[2:])
            if room.words() is not None and room.words() != len(self.now()):
                raise CannotSay
            self.table = sw.Table(room, words[0], None if words[1] == 0 else words[1] - 1)
            return done()
        if name == "make_attrset":
            if len(further) % 3 or any(optional > 1 for optional in further[2::3]):
                raise CannotSay
            fields = [sw.Field(*further[i : i + 2], bool(further[i + 2])) for i in range(0, len(further), 3)]
            return done(self.loaded().make_attrset(fields, words[0] != 0, words[2] if words[1] else None))
        try:
            table = self.loaded()
        except sw.BadTable as error:
            # No table is there to open a question in: refused before it, as at the opening.
            raise sw.Unopened(error) if name in OPENS else error
        if name in OPENS:
            held, left, right, budget = words
            return worked(getattr(table, name)(left, right, budget, held != 0))
        told = getattr(table, name)(*words)
        if name == "work":
            return worked(told)
        if name == "entry":
            return done(*entry_values(told))
        if name == "record":
            return done(words[0], *vars(told).values())
        return done(told)

    def call(self, name, words, further):
        if name in ("resolve", "from_left", "at_once"):
            return done(getattr(sw, name)(*words))
        if name.endswith(("_name", "_names")):
            return self.name_call(name, words, further)
        return self.image_call(name, words, further)

    def call_line(self, name, words, further, answer):
        global passed_over
        before = self.now()
        steps = 0
        try:
            told = self.call(name, words, further)
        except CannotSay:
            passed_over += 1
            return
        except sw.Refusal as error:
            told, steps = refusal(error), error.steps
            if name == "work" or name in OPENS:
                told += f" steps {steps}"
        if told != answer:
            raise self.wrong(f"{name} answers '{told}', stored is '{answer}'")
        # what is refused at a step keeps the steps before it, and an opening the question
        refused = told.startswith("refused") and steps == 0 and name not in OPENS
        if refused or told.startswith("unopened") or name in READS:
            self.same(before, "before the call it")

    def same(self, due, name):
        now = self.now()
        if now == due:
            return
        if len(now) != len(due):
            raise self.wrong(f"{len(now)} words, {name} are {len(due)}")
        i = next(i for i, (n, d) in enumerate(zip(now, due)) if n != d)
        raise self.wrong(f"word {i} is {now[i]}, {name} is {due[i]}")

    def run(self, file):
        self.file, self.line, self.listed = file, 0, None
        for text in self.read(file).decode().splitlines():
            self.line += 1
            if text and not text.startswith("#"):
                try:
                    self.run_line(text)
                except (ArithmeticError, AttributeError, LookupError, TypeError, ValueError) as error:
                    raise self.wrong(f"'{text}' cannot be run: {error}") from error
        self.close_list()

    def close_list(self):
        if self.listed is not None:
            self.same(self.listed, "stored")
            self.listed = None

    def run_line(self, text):
        head, _, answer = text.partition(" -> ")
        head, _, further = head.partition(":")
        verb, *words = head.split()
        words, further = [int(w) for w in words], [int(w) for w in further.split()]
        if verb == "at" and self.listed is not None:
            self.listed[words[0] : words[0] + len(further)] = array("I", further)
            return
        self.close_list()
        if verb == "words":
            self.listed = array("I", bytes(4 * words[0]))
        elif verb == "load":
            self.set(self.image[:])
        elif verb == "length":
            self.set((self.now() + array("I", bytes(4 * words[0])))[: words[0]])
        elif verb == "set":
            now = self.now()
            now[words[0]] = words[1]
            self.set(now)
        else:
            self.call_line(verb, words, further, answer)

    def test(self):
        self.run("made")
        self.line = 0
        self.same(self.image, "in image")
        self.set(self.image[:])
        self.run("next")


def main(folders):
    status = 0 if folders else 1
    for folder in folders:
        try:
            Stored(folder).test()
        except Wrong as error:
            print(error)
            status = 1
    print(f"images: Python: {passed_over} lines that it cannot say were passed over")
    return status


sys.exit(main(sys.argv[1:]))
