#!/usr/bin/env python3
"""A second reading of the format and of `join`, written apart from the program over Python's own JSON and TOML.

    second_reader.py                      how 19,635 texts with one byte changed and 76 beginnings are answered
    second_reader.py --answer [LAYOUT]    what `join` writes for standard input
    second_reader.py --against PROGRAM    compares the program's answers with these on some thousand inputs

The tests of hostile bytes take their figures from the first. It judges texts of any length, numbers beyond floats
and nesting as `serde_json` does; a layout file it takes to be right.
"""

import json
import random
import subprocess
import sys
import tomllib
from collections import Counter
from itertools import zip_longest

TEXT = b'{"from":0,"rows":[{"ann":0,"fin":0,"out":[2,1],"r":0,"s":0,"taken":0}],"v":1}'
ROW_KEYS = {"ann", "fin", "out", "r", "s", "taken"}
COUNTER_LIMIT = 10**12
TEXT_LIMIT = 2_097_152
INPUT_LIMIT = 16_777_216
# Arrays and objects within one another.
DEPTH_LIMIT = 127

# The layout without a file: two sites, one record of two seats at site 0.
BUILT_IN = {"sites": 2, "record": [{"name": "a", "seats": 2, "home": 0, "problem": 1}]}


class NoReading(ValueError):
    """JSON has a text for it that `serde_json` has no value for."""


def a_float(text):
    value = float(text)
    if value in (float("inf"), float("-inf")):
        raise NoReading(text)
    return value


def an_integer(text):
    # beyond 64 bits it is read as a float, which has a range
    digits = text.lstrip("-")
    if len(digits) > 19:
        a_float(text)
        return 2**64 if len(digits) > 20 else int(text)
    return int(text)


def no_constant(text):
    raise NoReading(text)


def texts_of(value):
    if type(value) is str:
        yield value
    elif type(value) is dict:
        for key, part in value.items():
            yield key
            yield from texts_of(part)
    elif type(value) is list:
        for part in value:
            yield from texts_of(part)


def depth_of(text):
    """The greatest nesting, brackets in strings aside."""
    deepest = depth = 0
    in_string = escaped = False
    for char in text:
        if in_string:
            if escaped:
                escaped = False
            elif char == "\\":
                escaped = True
            elif char == '"':
                in_string = False
        elif char == '"':
            in_string = True
        elif char in "[{":
            depth += 1
            deepest = max(deepest, depth)
        elif char in "]}":
            depth -= 1
    return deepest


def json_value(text):
    if depth_of(text) > DEPTH_LIMIT:
        raise NoReading("depth")
    value = json.loads(text, parse_int=an_integer, parse_float=a_float, parse_constant=no_constant)
    if any("\ud800" <= char <= "\udfff" for part in texts_of(value) for char in part):
        raise NoReading("half of a surrogate pair")
    return value


def whole(value, least, most):
    return type(value) is int and least <= value <= most


def is_row(row):
    return (
        type(row) is dict
        and set(row) == ROW_KEYS
        and whole(row["r"], 0, 255)
        and whole(row["s"], 0, 15)
        and type(row["out"]) is list
        and 1 <= len(row["out"]) <= 16
        and all(whole(n, 0, 2**64 - 1) for n in row["out"] + [row["taken"], row["ann"], row["fin"]])
    )


def is_delta(value):
    if type(value) is not dict or set(value) != {"from", "rows", "v"}:
        return False
    rows = value["rows"]
    if not whole(value["v"], 1, 1) or not whole(value["from"], 0, 15) or type(rows) is not list:
        return False
    places = [(row["r"], row["s"]) for row in rows if is_row(row)]
    return len(places) == len(rows) and all(a < b for a, b in zip(places, places[1:]))


def grant(layout, r, s):
    record = layout["record"][r]
    return record["seats"] if s == record["home"] else 0


def is_placed(layout, row):
    return row["r"] < len(layout["record"]) and row["s"] < len(row["out"]) <= layout["sites"]


def is_valid(layout, row):
    own = row["out"][row["s"]]
    granted = grant(layout, row["r"], row["s"])
    others = [n for j, n in enumerate(row["out"]) if j != row["s"]]
    return granted <= own <= granted + row["taken"] and row["fin"] <= row["ann"] and all(
        n <= COUNTER_LIMIT for n in others + [row["taken"], row["ann"]]
    )


def text_of(delta):
    return json.dumps(delta, separators=(",", ":"), sort_keys=True)


def decode(line):
    """The name of the first fault of a text and None, or None and the rows of its delta."""
    if len(line) > TEXT_LIMIT:
        return "TooLong", None
    try:
        text = line.decode("utf-8")
    except UnicodeDecodeError:
        return "NotUtf8", None
    try:
        value = json_value(text)
    except ValueError:
        return "NotJson", None
    if not is_delta(value) or text_of(value) != text:
        return "NotCanonical", None
    return None, value["rows"]


def read(line, layout):
    """The name of the line's first fault and None, or None and its rows."""
    fault, rows = decode(line)
    for name, fits in (("OtherLayout", is_placed), ("BadRow", is_valid)):
        for i, row in enumerate(rows or []):
            if not fits(layout, row):
                return f"{name} {i}", None
    return fault, rows


def start(layout, r, s):
    out = [0] * layout["sites"]
    out[s] = grant(layout, r, s)
    return {"ann": 0, "fin": 0, "out": out, "r": r, "s": s, "taken": 0}


def greater(a, b):
    return {key: [max(x, y) for x, y in zip_longest(a[key], b[key], fillvalue=0)] if key == "out" else max(a[key], b[key]) for key in a}


def answer(data, layout=None):
    """What `join` writes, and its exit status."""
    layout = layout or BUILT_IN
    if len(data) > INPUT_LIMIT:
        return "input refused TooLong\n", 4
    lines = data.split(b"\n")
    if not lines[-1]:
        lines.pop()
    book = {}
    for number, line in enumerate(lines, 1):
        name, rows = read(line, layout)
        if name:
            return f"line {number} refused {name}\n", 4
        for row in rows:
            place = (row["r"], row["s"])
            book[place] = greater(book.get(place, start(layout, *place)), row)
    rows = [row for place, row in sorted(book.items()) if row != start(layout, *place)]
    return text_of({"from": 0, "rows": rows, "v": 1}) + "\n", 0


def changed_bytes():
    for i in range(len(TEXT)):
        for byte in range(256):
            if byte != TEXT[i]:
                yield TEXT[:i] + bytes([byte]) + TEXT[i + 1 :]


def count():
    for title, inputs in (
        ("one byte changed", changed_bytes()),
        ("beginnings", (TEXT[:length] for length in range(1, len(TEXT)))),
    ):
        names = Counter(text if status else "joined\n" for text, status in map(answer, inputs))
        for name, times in names.most_common():
            print(f"{title}: {times} {name}", end="")


def a_row(r, s, sites, granted):
    taken = random.choice((0, 1, 7, COUNTER_LIMIT, random.randrange(COUNTER_LIMIT)))
    out = [random.choice((0, 1, 3, COUNTER_LIMIT, random.randrange(COUNTER_LIMIT))) for _ in range(sites)]
    out[s] = granted + random.randrange(taken + 1)
    ann = random.choice((0, 1, 64, COUNTER_LIMIT))
    return {"ann": ann, "fin": random.randrange(ann + 1), "out": out, "r": r, "s": s, "taken": taken}


def some_lines():
    """Some lines that are taken, with a change now and then that mostly is not."""
    lines = []
    for _ in range(random.randrange(5)):
        rows = [a_row(0, s, 2, 2 if s == 0 else 0) for s in range(2) if random.random() < 0.7]
        line = bytearray(text_of({"from": random.randrange(16), "rows": rows, "v": 1}).encode())
        if random.random() < 0.2:
            place = random.randrange(len(line))
            line[place : place + random.randrange(2)] = random.choice((b"", b"0", b"9", b",", b"]", b" ", b"e9", b"\xff", b"\\"))
        lines.append(bytes(line))
    return b"\n".join(lines) + random.choice((b"", b"\n"))


def strange_inputs():
    nested = [b"[" * n + b"]" * n for n in (1, 126, 127, 128, 129, 5_000)]
    objects = [b'{"a":' * n + b"1" + b"}" * n for n in (126, 127, 128)]
    numbers = [b"1e308", b"1e309", b"-1e309", b"1e-400", b"-0", b"01", b"1.", b".5", b"+1", b"NaN", b"Infinity", b"-Infinity"]
    numbers += [b"9" * n for n in (19, 20, 21, 308, 309, 310, 5_000)] + [b"-" + b"9" * 400, b"18446744073709551615", b"18446744073709551616"]
    strings = [b'"\\ud800"', b'"\\ud83d\\ude00"', b'"\\udc00\\ud800"', b'"\\x"', b'"\t"', b'"\x7f"', b'{"a":1,"a":2}', b"\xef\xbb\xbf1", b" 1 ", b"1 2", b""]
    sizes = [b" " * n for n in (TEXT_LIMIT, TEXT_LIMIT + 1, INPUT_LIMIT, INPUT_LIMIT + 1)] + [b"\n" * 100_000, (TEXT + b"\n") * 20_000]
    placed = [TEXT.replace(b"[2,1]", b"[2," + number + b"]") for number in numbers]
    return nested + objects + numbers + strings + sizes + placed


def compare(program):
    random.seed(7)
    inputs = strange_inputs() + [some_lines() for _ in range(1_000)] + random.sample(list(changed_bytes()), 1_000)
    statuses = Counter()
    for data in inputs:
        run = subprocess.run([program], input=data, capture_output=True, check=False)
        wanted = answer(data)
        if (run.stdout.decode(), run.returncode) != wanted or run.stderr:
            sys.exit(f"{data[:200]!r}: the program answers {run.stdout[:200]!r} with {run.returncode}, not {wanted}")
        statuses[run.returncode] += 1
    print(f"{len(inputs)} inputs, {statuses[0]} joined and {statuses[4]} refused, all answered alike")


def main():
    sys.set_int_max_str_digits(0)
    sys.setrecursionlimit(100_000)
    match sys.argv[1:]:
        case []:
            count()
        case ["--against", program]:
            compare(program)
        case ["--answer", *named] if len(named) <= 1:
            layout = None
            if named:
                with open(named[0], "rb") as file:
                    layout = tomllib.load(file)
            text, status = answer(sys.stdin.buffer.read(INPUT_LIMIT + 1), layout)
            sys.stdout.write(text)
            sys.exit(status)
        case _:
            sys.exit(__doc__)


if __name__ == "__main__":
    main()
