"""Runs the scripts of corpus/ through bindings/python, and holds the answers to those stored.

    replay.py SCRIPT...    SCRIPT.txt, whose answers are SCRIPT.out

Tells for each script that differs its name, the line, and both answers; status 1 where one does. The language is that of winch, as far as
the scripts use it. The binding is that of the folder SHEAFWINCH_PYTHON where it is set.
"""

import os
import sys

FOLDER = os.path.dirname(os.path.abspath(__file__))
sys.path.insert(0, os.environ.get("SHEAFWINCH_PYTHON") or os.path.join(FOLDER, "..", "..", "bindings", "python"))
import sheafwinch as sw

REGIONS = "entries", "fields", "bounds", "visited", "pending", "equals"
ROOM = sw.Capacities(128, 64, 128, 128, 64, 16)
ALL = 4294967295


class Wrong(Exception):
    pass


def content(line):
    return line.partition("#")[0].split()


def name_list(names):
    """A name list of these names, in this order."""
    offsets, bytes_ = [0], b""
    for name in names:
        bytes_ += name.encode()
        offsets.append(len(bytes_))
    return b"".join(n.to_bytes(2, "little") for n in (len(names), *offsets)) + bytes_


class Run:
    """A script that is run: its lines, its table, and the settings."""

    def __init__(self, lines):
        self.lines, self.at, self.limit, self.given = lines, 0, ALL, None
        self.begin(ROOM)

    def begin(self, room):
        """A table whose names are those given, else those of the attrsets up to the next table."""
        names = self.given
        if names is None:
            names = set()
            for line in self.lines[self.at + 1 :]:
                verb, *words = content(line) or [""]
                if verb in ("new", "start"):
                    break
                if verb == "attr":
                    names.update(words[3::3])
            names = sorted(names)
        functor = names.index("__functor") if "__functor" in names else None
        self.table = sw.Table(room, len(names), functor)
        self.names = sw.Names(name_list(names))

    def show_name(self, number):
        return self.names.show(number).decode()

    def failure(self, told):
        if isinstance(told, sw.Mismatch):
            return f"mismatch {told.sub} {told.sup}"
        return f"missing {told.sub} {told.sup} {self.show_name(told.name)}"

    def refusal(self, error):
        error = error.refusal if isinstance(error, sw.Unopened) else error
        said = f"refused {error.number} {error.name}"
        if isinstance(error, sw.NoRoom):
            said += f" {REGIONS[error.region - 1]}"
        return f"{said} {self.failure(error.failure)}" if isinstance(error, sw.Broken) else said

    def shape(self, n):
        entry = self.table.entry(n)
        record = self.table.record(sw.Region.ENTRIES, n)
        if not isinstance(entry, sw.Attrset):
            return " ".join(map(str, [record.kind, *map(int, vars(entry).values())]))
        said = [4, int(entry.open), -1 if entry.dynamic is None else entry.dynamic, entry.count]
        for i in range(entry.first, entry.first + entry.count):
            field = self.table.record(sw.Region.FIELDS, i)
            said += [self.show_name(field.name), field.entry, int(field.optional)]
        return " ".join(map(str, said))

    def entry(self, n):
        record = self.table.record(sw.Region.ENTRIES, n)
        return f"e {n} m {record.flags % 2} n {record.negation - 1} : {self.shape(n)}"

    def records(self, region):
        return [self.table.record(region, i) for i in range(self.table.count(region))]

    def dump(self):
        bounds = self.records(sw.Region.BOUNDS)
        said = [f"level {self.table.level()} entries {self.table.count(sw.Region.ENTRIES)}"]
        said += [self.entry(n) for n in range(self.table.count(sw.Region.ENTRIES))]
        said += [f"b {b.variable} {int(b.side)} {b.bound}" for b in sorted(bounds, key=lambda b: (b.variable, b.side))]
        said += [f"v {p.left} {p.right}" for p in self.records(sw.Region.VISITED)]
        said += [f"q {p.left} {p.right}" for p in self.records(sw.Region.EQUALS)]
        return said + ["end"]

    def state(self):
        table, broken = self.table, self.table.broken()
        said = f"{'asked' if table.asked() else 'idle'} level {table.level()} break {self.failure(broken) if broken else 'none'}"
        said += f" names {table.names()} functor {table.words()[8]}"
        return said + "".join(f" {name} {table.count(i)}/{table.capacity(i)}" for i, name in enumerate(REGIONS, 1))

    def instalment(self, call, *arguments):
        """What an opening or work answers. A refusal at the opening, or of work while idle, is the line's."""
        try:
            done = call(*arguments)
        except (sw.NoRoom, sw.TooDeep) as error:
            return f"{self.refusal(error)} steps {error.steps}"
        if isinstance(done.answer, (sw.Yes, sw.More)):
            return f"{'yes' if isinstance(done.answer, sw.Yes) else 'more'} steps {done.steps}"
        said = f"{self.failure(done.answer)} steps {done.steps}"
        if isinstance(done.answer, sw.Mismatch):
            said += f" [{self.shape(done.answer.sub)}] [{self.shape(done.answer.sup)}]"
        return said

    def open(self, verb, words, held, stays):
        """A line `ask` or `equal`: one call. Where the question stays open, no step is worked."""
        call = self.table.open_equal if verb == "equal" else self.table.open
        said = self.instalment(call, int(words[0]), int(words[1]), 0 if stays else self.limit, held)
        if stays:
            return "asked" if said == "more steps 0" else said
        if said.startswith("more"):
            self.table.abandon()
        return said

    def attr(self, words):
        is_open, dynamic, _count, *rest = words
        fields = sorted((rest[i : i + 3] for i in range(0, len(rest), 3)), key=lambda field: field[0].encode())
        fields = [sw.Field(self.names.find(name.encode()), int(entry), optional == "1") for name, entry, optional in fields]
        return self.table.make_attrset(fields, is_open == "1", None if dynamic == "-1" else int(dynamic))

    def obey(self, words):
        """What a line answers: lines."""
        held, stays = words[0] == "held", "open" in words[:2]
        verb, *words = words[held + stays :]
        table = self.table
        if verb in ("ask", "equal"):
            return [self.open(verb, words, held, stays)]
        if verb == "attr":
            return self.made(self.attr(words))
        if verb == "names":
            names = sorted(words, key=str.encode)
            sw.Names(name_list(names)).check()
            self.given = names
            return [f"names {len(names)}"]
        if verb == "find":
            found = self.names.find(words[0].encode())
            return ["absent" if found is None else f"found {found}"]
        numbers = [int(word) for word in words]
        makes = {"var": table.make_variable, "prim": table.make_primitive, "list": table.make_list, "lambda": table.make_lambda,
                 "named": table.make_named, "neg": table.make_neg, "inter": table.make_inter, "union": table.make_union}
        if verb in makes:
            return self.made(makes[verb](*numbers))
        silent = {"mark": table.mark, "bound": table.put_bound, "setlevel": table.set_level, "level": self.go_to_level,
                  "limit": self.set_limit, "enter": table.enter, "exit": table.exit}
        if verb in silent:
            silent[verb](*numbers)
            return []
        if verb == "start":
            room = sw.Capacities(*numbers)
            self.begin(room)
            return [f"started words {room.words()}"]
        if verb == "work":
            return [self.instalment(table.work, numbers[0] if numbers else ALL)]
        if verb == "abandon":
            table.abandon()
            return ["abandoned"]
        if verb == "count":
            return [" ".join(f"{name} {table.count(REGIONS.index(name) + 1)}" for name in ("entries", "bounds", "visited"))]
        if verb == "op":
            known = sw.resolve(*numbers), sw.from_left(*numbers[:2]), sw.at_once(numbers[0])
            return [" ".join(["op", *(str(-1 if p is None else int(p)) for p in known)])]
        reads = {"entry": self.entry, "state": self.state, "disjoint": lambda *pair: f"disjoint {int(table.disjoint(*pair))}",
                 "name": lambda n: f"name {self.show_name(n)}"}
        if verb in reads:
            return [reads[verb](*numbers)]
        if verb == "dump":
            return self.dump()
        raise Wrong(f"no verb {verb}")

    def made(self, number):
        return [f"= {number} {self.table.count(sw.Region.ENTRIES)}"]

    def go_to_level(self, level):
        while self.table.level() != level:
            self.table.enter() if self.table.level() < level else self.table.exit()

    def set_limit(self, limit):
        self.limit = ALL if limit < 0 else limit

    def answers(self):
        """The lines that answer something, each with what it answers."""
        for self.at, line in enumerate(self.lines):
            words = content(line)
            try:
                yield self.at + 1, self.obey(words) if words else []
            except sw.Refusal as error:
                yield self.at + 1, [self.refusal(error)]


def read(path):
    with open(path, encoding="utf-8") as file:
        return file.read().splitlines()


def hold(path):
    """Raises where a script's answers are not those stored."""
    lines, stored, told = read(path), read(path.removesuffix(".txt") + ".out"), 0
    for line, answers in Run(lines).answers():
        for answer in answers:
            due = stored[told] if told < len(stored) else "nothing more"
            if answer != due:
                raise Wrong(f"{path}:{line}: {lines[line - 1]}\n    answers '{answer}', stored is '{due}'")
            told += 1
    if told != len(stored):
        raise Wrong(f"{path}: ends, stored is '{stored[told]}' besides")


def main(paths):
    status = 0 if paths else 1
    for path in paths:
        try:
            hold(path)
        except Wrong as wrong:
            print(f"corpus: Python: {wrong}")
            status = 1
    return status


sys.exit(main(sys.argv[1:]))
