#!/usr/bin/env python3
"""Writes the inputs of the bench into a folder: usage: make_inputs.py FOLDER"""
import json
import random
import struct
import sys
import unicodedata

PIECES = [
    "let total = total + item_value;\n",
    "// résumé of the open accounts\n",
    "fn area(w: u64, h: u64) -> u64\n",
    "// naïve, then faster: 日本語\n",
    "// done 😀 and checked twice\n",
]
LINE_LIMIT = 4_194_304


def line(value):
    return json.dumps(value, ensure_ascii=False, separators=(",", ":"))


def small_loads(bytes_wanted):
    """Short loads over 200 names, to `bytes_wanted` bytes in all."""
    lines, size, k = [], 0, 0
    while True:
        text = line({"load": f"name{k % 200}", "text": PIECES[k % len(PIECES)] * (1 + k % 3)})
        size += len(text.encode()) + 1
        if size > bytes_wanted:
            return "\n".join(lines) + "\n"
        lines.append(text)
        k += 1


def mixed_text(bytes_wanted):
    parts, size, k = [], 0, 0
    while size < bytes_wanted:
        parts.append(PIECES[k % len(PIECES)])
        size += len(parts[-1].encode())
        k += 1
    return "".join(parts)


def one_load():
    """One line just below the limit of a line."""
    text = mixed_text(3_700_000)
    value = line({"load": "big", "text": text})
    assert len(value.encode()) <= LINE_LIMIT
    return value + "\n"


def content_of(text, by_units):
    """What a load of a text gives: the string, or its UTF-16 units; and how many units it has."""
    packed = text.encode("utf-16-le")
    units = len(packed) // 2
    return ({"units": list(struct.unpack(f"<{units}H", packed))} if by_units else {"text": text}), units


def questions(text, number, a_line, by_units=False):
    """A text, loaded as a string or by its UTF-16 units, then lines of so many places each by UTF-16 offset."""
    content, units = content_of(text, by_units)
    draw = random.Random(1)
    lines = [line({"load": "doc", **content})]
    for _ in range(number):
        lines.append(line({"on": "doc", "do": [{"at": draw.randrange(units)} for _ in range(a_line)]}))
    return "\n".join(lines) + "\n"


def counts():
    """A mixed text of 60 KB, then three lines of 100 counts of its Characters."""
    lines = [line({"load": "doc", "text": mixed_text(60_000)})]
    for _ in range(3):
        lines.append(line({"on": "doc", "do": [{"count": "characters"}] * 100}))
    return "\n".join(lines) + "\n"


def edits(text, number, a_line):
    """Edits of a few bytes at random places of one text."""
    units = len(text.encode("utf-16-le")) // 2
    draw = random.Random(2)
    lines = [line({"load": "doc", "text": text})]
    for _ in range(number):
        ops = []
        for _ in range(a_line):
            at = draw.randrange(units - 8)
            ops.append({"edit": [at, at + draw.randrange(4)], "with": "aé😀"[: draw.randrange(4)]})
        lines.append(line({"on": "doc", "do": ops}))
    return "\n".join(lines) + "\n"


def compares(a, b):
    """300 compares of two texts of about 60 KB."""
    lines = [line({"load": "a", "text": a}), line({"load": "b", "text": b})]
    return "\n".join(lines + [line({"compare": ["a", "b"]})] * 300) + "\n"


def edited_copies():
    """2,000 copies of a text of 60 KB, each edited once."""
    text = mixed_text(60_000)
    units = len(text.encode("utf-16-le")) // 2
    draw = random.Random(3)
    lines = [line({"load": "doc", "text": text})]
    for k in range(2000):
        at = draw.randrange(units)
        lines.append(line({"copy": f"copy{k % 100}", "from": "doc"}))
        lines.append(line({"on": f"copy{k % 100}", "do": [{"edit": [at, at], "with": "x"}]}))
    return "\n".join(lines) + "\n"


def slices():
    """20,000 slices of 60 units out of a text of 60 KB, 100 a line."""
    text = mixed_text(60_000)
    units = len(text.encode("utf-16-le")) // 2
    draw = random.Random(4)
    lines = [line({"load": "doc", "text": text})]
    for _ in range(200):
        starts = [draw.randrange(units - 60) for _ in range(100)]
        lines.append(line({"on": "doc", "do": [{"slice": [at, at + 60]} for at in starts]}))
    return "\n".join(lines) + "\n"


def batches():
    """A text of 1,000 pieces, about 31 KB, then 200 batches of eight jobs, each of 200 places with an edit after each 20; the first job's
    text is kept."""
    draw = random.Random(5)
    text = "".join(draw.choice(PIECES) for _ in range(1000))
    units = len(text.encode("utf-16-le")) // 2
    lines = [line({"load": "doc", "text": text})]
    for _ in range(200):
        jobs = []
        for number in range(8):
            ops = []
            for op in range(210):
                if op % 21 == 20:
                    at = draw.randrange(units - 16)
                    ops.append({"edit": [at, at + draw.randrange(8)], "with": draw.choice(PIECES)})
                else:
                    ops.append({"at": draw.randrange(units)})
            jobs.append({"on": "doc", "do": ops, **({"keep": "kept"} if number == 0 else {})})
        lines.append(line({"batch": jobs}))
    return "\n".join(lines) + "\n"


folder = sys.argv[1]
mixed = mixed_text(60_000)
ascii_text = (PIECES[0] + PIECES[2]) * 950
for name, text in (
    ("small_loads", small_loads(4_000_000)),
    ("small_loads_twice", small_loads(8_000_000)),
    ("one_load", one_load()),
    ("questions_short", questions(mixed_text(100), 200, 1000)),
    ("questions", questions(mixed, 200, 1000)),
    ("questions_units", questions(mixed, 200, 1000, by_units=True)),
    ("questions_long", questions(mixed_text(1_000_000), 2, 1000)),
    ("questions_one_a_line", questions(mixed, 200_000, 1)),
    ("slices", slices()),
    ("counts", counts()),
    ("edits", edits(mixed_text(40_000), 100, 100)),
    ("edits_long", edits(mixed_text(1_000_000), 10, 10)),
    ("edited_copies", edited_copies()),
    ("compares_equal", compares(mixed, mixed)),
    ("compares_canonical", compares(mixed, unicodedata.normalize("NFD", mixed))),
    ("compares_ascii", compares(ascii_text, ascii_text)),
    ("compares_different", compares(mixed, "m" + mixed[1:])),
    ("batches", batches()),
):
    with open(f"{folder}/{name}.jsonl", "w", encoding="utf-8") as out:
        out.write(text)
