"""A question worked in instalments until a deadline, its words stored, and continued later; then the same question in one go.
Answer, steps and every word are the same."""

from time import monotonic

from sheafwinch import Capacities, More, Primitive, Side, Table

SHAPES = 60
BUDGET = 100  # steps of an instalment


def make_table():
    """Two variables: the first takes lists of Int, the second fits under lists of Number. Each of the one kind meets each of the other."""
    table = Table(Capacities(entries=4 + 2 * SHAPES, bounds=4 * SHAPES, visited=65536, pending=1024))
    int_, number = table.make_primitive(Primitive.INT), table.make_primitive(Primitive.NUMBER)
    request, station = table.make_variable(), table.make_variable()
    for _ in range(SHAPES):
        table.put_bound(request, Side.LOWER, table.make_list(int_))
        table.put_bound(station, Side.UPPER, table.make_list(number))
    return table, request, station


def work_until(table, last, deadline):
    """Works on after an instalment, until the question is over or the deadline has passed: the answer so far, and the steps."""
    steps = last.steps
    while last.answer == More() and monotonic() < deadline:
        last = table.work(BUDGET)
        steps += last.steps
    return last.answer, steps


def main():
    table, request, station = make_table()
    whole = table.copy()

    deadline = monotonic() + 0.001
    answer, before = work_until(table, table.open(request, station, BUDGET), deadline)
    print(f"at the deadline: {answer}, {before} steps")

    stored = table.words().tobytes()
    print(f"stored: {len(stored)} bytes")

    table = Table.from_words(memoryview(stored).cast("I"))
    after = 0
    if answer == More():
        answer, after = work_until(table, table.work(BUDGET), monotonic() + 60)
    print(f"later: {answer}, {after} steps more")

    once = whole.open(request, station, 0xFFFFFFFF)
    print(f"in one go: {once}")
    assert (answer, before + after) == (once.answer, once.steps)
    assert table == whole
    print("the same answer, steps and words")


if __name__ == "__main__":
    main()
