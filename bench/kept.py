#!/usr/bin/env python3
"""Measures the memory of the messages that `play` keeps, where a site once knew far more than it tells now.

Run it from anywhere, once ./seat_cli has built the program: python3 bench/kept.py [PROGRAM]
There are 16 sites and 256 records with 100 seats, none of which begin at site 0. All other sites give each other seats, exchange
deltas, admit a reader at each record, and tell site 0, which then knows 15 rows of each record. Then site 0 restarts, which
leaves it none, announces one writer, and sends 20,000 and 80,000 deltas, each of one row. The peak has to follow these
rows. Memory is told by GNU time.
"""
import pathlib
import subprocess
import sys
import tempfile

SITES, RECORDS, SEATS = 16, 256, 100
HERE = pathlib.Path(__file__).resolve().parent


def layout():
    """Records that begin at the sites 1 to 15."""
    named = (f'[[record]]\nname = "r{i}"\nseats = {SEATS}\nhome = {1 + i % 15}\nproblem = 1\n' for i in range(RECORDS))
    return f"sites = {SITES}\n" + "".join(named)


def script(sends):
    """The events; the deltas of the sites 1 to 15 are the messages 0 to 14, and then 15 to 29."""
    others = range(1, SITES)
    for i in range(RECORDS):
        home = 1 + i % 15
        yield from (f"{home} give r{i} {to} 1\n" for to in others if to != home)
    yield from (f"{site} send\n" for site in others)
    yield from (f"{site} take {k}\n" for site in others for k in range(15))
    yield from (f"{site} read r{i} {site}\n" for site in others for i in range(RECORDS))
    yield from (f"{site} send\n" for site in others)
    yield from (f"0 take {15 + k}\n" for k in range(15))
    yield "0 restart\n0 announce r0 5\n"
    yield from ("0 send\n" for _ in range(sends))


def peak(program, folder, sends):
    """The peak in MB, and the last reply."""
    (folder / "layout.toml").write_text(layout(), encoding="ascii")
    (folder / "script").write_text("".join(script(sends)), encoding="ascii")
    words = ["/usr/bin/time", "-f", "%M", program, "play", "--layout", "layout.toml"]
    with open(folder / "script", "rb") as lines:
        ran = subprocess.run(words, cwd=folder, stdin=lines, capture_output=True, check=True)
    return int(ran.stderr.split()[-1]) / 1000, ran.stdout.decode().rstrip("\n").split("\n")


def main():
    program = sys.argv[1] if len(sys.argv) > 1 else HERE.parent / "crates/seat_cli/out/seat_cli"
    program = str(pathlib.Path(program).resolve())
    with tempfile.TemporaryDirectory() as folder:
        for sends in (20_000, 80_000):
            megabytes, replies = peak(program, pathlib.Path(folder), sends)
            refused = sum(it.startswith("refused") for it in replies)
            print(f"{sends} deltas of one row: {megabytes:.0f} MB, {refused} events refused, last reply: {replies[-1][:60]}")


if __name__ == "__main__":
    main()
