"""Holds docs/FORMAT.md to the stored images: runs the page's Python over each, and compares.

    page.py FOLDER...    images as images/format-1/README.md has them

The reader's records and what it prints are compared with the stored answers of `check`, `entry` and `record`; the example's table with the
words of its image; the page's conditions with the library's check, on the images, their name lists, and copies with a word or a byte changed.
Each condition must fail in some image or copy. Tells each difference; status 1 where there is one.
"""

import contextlib
import io
import os
import re
import subprocess
import sys
from array import array

ROOT = os.path.join(os.path.dirname(os.path.abspath(__file__)), "..", "..")
sys.path.insert(0, os.path.join(ROOT, "bindings", "python"))
import sheafwinch as sw

# Copies are made of images with at most so many words, and of lists with at most so many bytes.
COPIED_MOST = 900
KINDS = "variable primitive list lambda attrset named neg inter union".split()


class Wrong(Exception):
    pass


def same(what, got, due):
    if got != due:
        raise Wrong(f"{what}: {got}, should be {due}")


def page():
    """The page, and its two programs: the reader, and the conditions, which use it."""
    with open(os.path.join(ROOT, "docs", "FORMAT.md"), encoding="utf-8") as file:
        text = file.read()
    programs = re.findall(r"^```python\n(.*?)^```$", text, re.S | re.M)
    same("programs of the page", len(programs), 2)
    return text, programs


def read(folder, name):
    with open(os.path.join(folder, name), "rb") as file:
        return file.read()


def stored(folder):
    """What `next` says of the image as it is: its check, and its entries and records as lists of words, by region and number."""
    well_formed, entries, records = None, [], [[] for _ in range(6)]
    for line in read(folder, "next").decode().splitlines():
        if line.startswith("#"):
            continue
        call, _, answer = line.partition(" -> done ")
        verb, *numbers = call.split()
        words = [int(word) for word in answer.split()]
        if verb == "check" and well_formed is None:
            well_formed = words == [1]
        elif verb == "entry" and numbers == [str(len(entries))] and words:
            entries.append(words)
        elif verb == "record" and words and numbers[1] == str(len(records[words[0] - 1])):
            records[words[0] - 1].append(tuple(words[1:]))
        else:
            break
    return well_formed, entries, records


def printed(entries, records, names):
    """What the reader should print."""
    lines = []
    for i, (kind, *words) in enumerate(entries):
        if kind == 4:
            first, count, is_open, has_dynamic, dynamic = words
            fields = [f"{names[name]!r}{'?' if optional else ''}:{entry}" for name, entry, optional in records[1][first : first + count]]
            words = ["open" if is_open else "closed", *fields, *([f"_:{dynamic}"] if has_dynamic else [])]
        marked = ["marked"] if records[0][i][4] % 2 else []
        lines.append(" ".join(map(str, ["entry", i, KINDS[kind], *words, *marked])))
    lines += [f"bound {variable} {['lower', 'upper'][side]} {bound}" for variable, side, bound in records[2]]
    lines += [f"visited {sub} {sup}" for sub, sup in records[3]]
    return lines


def shown(tool, words, names):
    out = io.StringIO()
    with contextlib.redirect_stdout(out):
        tool["show"](words, names)
    return out.getvalue().splitlines()


def failing(call, argument):
    """A condition that does not hold, or None."""
    try:
        call(argument)
    except ValueError as condition:
        return str(condition)
    return None


def hold_image(tool, folder, met):
    words, names = tool["words_of"](read(folder, "image")), read(folder, "names")
    well_formed, entries, records = stored(folder)
    condition = failing(tool["check"], words)
    met.add(condition)
    same(f"check ({condition})", condition is None, well_formed)
    if well_formed:
        same("records", tool["regions"](words), records)
        due = printed(entries, records, tool["names_of"](names))
        same("printed", shown(tool, words, tool["names_of"](names)), due)


def hold_names(tool, names, met):
    condition = failing(tool["check_names"], names)
    met.add(condition)
    try:
        sw.Names(names).check()
        taken = True
    except sw.BadNames:
        taken = False
    same(f"check_names of {names[:40]}, {len(names)} bytes ({condition})", condition is None, taken)


def hold_copies(tool, folder, met):
    """The conditions and the library on copies: a word one or four off, or at the number of words or of entries. How many there were."""
    words, names, count = array("I", tool["words_of"](read(folder, "image"))), read(folder, "names"), 0
    if len(words) <= COPIED_MOST:
        limits = {len(words), *words[11:12], *(count + 1 for count in words[11:12])}
        for i, word in enumerate(words):
            for other in ({(word + by) % 2**32 for by in (1, -1, 4)} | limits) - {word}:
                words[i] = other
                condition = failing(tool["check"], tuple(words))
                same(f"check with word {i} = {other} ({condition})", condition is None, sw.check(words))
                met.add(condition)
                count += 1
            words[i] = word
    copies = [names]
    if len(names) <= COPIED_MOST:
        copies += [names[:i] + bytes([(byte + by) % 256]) + names[i + 1 :] for i, byte in enumerate(names) for by in (1, 16, 255)]
        copies += [names[:i] for i in range(len(names))]
    for copy in copies:
        hold_names(tool, copy, met)
    return count + len(copies)


def longest_names():
    """Lists at the limits of N5 and N6, which no stored list is a byte away from."""
    for count in (4096, 4097):
        offsets = b"".join((2 * i).to_bytes(2, "little") for i in range(count + 1))
        yield count.to_bytes(2, "little") + offsets + b"".join(i.to_bytes(2, "big") for i in range(count))
    for size in (255, 256):
        yield b"\x01\0\0\0" + size.to_bytes(2, "little") + bytes(size)


def hold_example(text, program):
    """The example of the page: every word of its image, in order, and what the reader prints of it."""
    section = text.split("\n## 12. ")[1].split("\n## ")[0]
    folder = os.path.join(ROOT, "images", "format-1", re.search(r"\[images/format-1/([^\]]*)\]", section).group(1))
    words = []
    for first, last, listed in re.findall(r"^\| (\d+)(?: to (\d+))? \| ([\d ]+) \|", section, re.M):
        same("the example's word", int(first), len(words))
        words += [int(word) for word in listed.split()]
        same(f"the example's words up to {last or first}", int(last or first) + 1, len(words))
    same("the example's words", array("I", words).tobytes(), read(folder, "image"))
    same("the example's names", bytes.fromhex(re.search(r"bytes `([0-9a-f ]+)`: count", section).group(1)), read(folder, "names"))
    due = re.search(r"^```text\n(.*?)^```$", section, re.S | re.M).group(1)
    ran = subprocess.run([sys.executable, "-W", "error", "-", folder + "/image", folder + "/names"], input=program, text=True, capture_output=True)
    same("the reader's output", ran.stdout + ran.stderr, due)


def main(folders):
    text, programs = page()
    tool = {"__name__": "page"}
    for program in programs:
        exec(compile(program, "docs/FORMAT.md", "exec"), tool)
    status, met, copies = 0, set(), 0
    for folder in folders:
        try:
            hold_image(tool, folder, met)
            copies += hold_copies(tool, folder, met)
        except Wrong as wrong:
            print(f"{folder}: {wrong}")
            status = 1
    try:
        hold_example(text, programs[0])
        for names in longest_names():
            hold_names(tool, names, met)
        regions = re.findall(r"^\| [1-6] \w+ \| [^|]* \| ([\d,]+) \| (\d):", text, re.M)
        same("the regions' table", [(int(most.replace(",", "")), int(width)) for most, width in regions], list(zip(tool["MOST"], tool["WIDTH"])))
        listed = set(re.findall(r"^\| ([WN]\d+) \|", text, re.M)) - {"W1"}
        same("conditions tested by the page's programs, beside those listed", set(re.findall(r'need\("([WN]\d+)"', text)) ^ listed, set())
        same("conditions that failed in no image and no copy", listed - met, set())
    except Wrong as wrong:
        print(f"docs/FORMAT.md: {wrong}")
        status = 1
    print(f"images: docs/FORMAT.md: {len(folders)} images, {copies} copies with a word or a byte changed")
    return status if folders else 1


sys.exit(main(sys.argv[1:]))
