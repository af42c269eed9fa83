#!/usr/bin/env python3
"""Prints how long the runs take beside metamath-rs 0.3.9 (see verify.sh): verify.py TIMER ORACLE-PROGRAM CORPUS WORK [CLOCK]

TIMER is verify.c, compiled. WORK is a folder that may be written to. CLOCK is cpu_clock.c as a shared library: with it both are timed by their processor
time. The two programs are timed in turn, eleven times, and each time is a median of eleven runs.
"""
import os
import pathlib
import re
import statistics
import subprocess
import sys

HERE = pathlib.Path(__file__).resolve().parent
GROWTH = (100, 200, 500, 1000, 2000, 4000)
ROUNDS = 11
# Our timer starts its clock when the first proof is answered; so our file has this one before all others, and the Rust's has not.
FIRST = """$c first-type $. $v first-variable $. first-float $f first-type first-variable $.
first-theorem $p first-type first-variable $= first-float $.
"""


def run(*words, **environment):
    return subprocess.run([str(word) for word in words], check=True, capture_output=True, env={**os.environ, **environment}).stdout


def ours(timer, frames):
    words = run(timer, frames).decode().removeprefix(str(frames)).split()
    return {name: int(value) for name, value in zip(words[::2], words[1::2])}


def rust(oracle, database, clock):
    text = run(oracle, "bench", database, "--runs", 11, **({"LD_PRELOAD": str(clock)} if clock else {})).decode()
    found = re.search(r"median (\d+)\nproofs (\d+) accepted (\d+) steps (\d+)", text)
    return dict(zip(("median", "proofs", "accepted", "steps"), map(int, found.groups())))


def exported(oracle, database, work):
    """The frame file of a database that begins with FIRST."""
    longer = work / (database.stem + "-first.mm")
    longer.write_text(FIRST + database.read_text())
    frames = work / (database.stem + ".frames")
    frames.write_bytes(run(oracle, "export", longer))
    return frames


def timed(programs, database, work):
    """Each round's times: of the Rust, and of ours without and with the clearing of the lent memory, and what comes before the proofs."""
    timer, oracle, clock = programs
    frames, rounds = exported(oracle, database, work), []
    for _ in range(ROUNDS):
        there, here = rust(oracle, database, clock), ours(timer, frames)
        for name in ("proofs", "accepted", "steps"):
            if here[name] != there[name]:
                sys.exit("%s: %s %d, the Rust %d" % (database.stem, name, here[name], there[name]))
        rounds.append({"rust": there["median"], "plain": here["run"] - here["clear"], "cleared": here["run"], "before": here["before"]})
    return here["proofs"], here["steps"], rounds


def middle(rounds, name):
    return statistics.median(row[name] for row in rounds)


def spread(rounds, name):
    """The lowest, middle and highest ratio of the rounds, and the ratio of the least times: what slows one program and not the other is not in it."""
    ratios = sorted(row[name] / row["rust"] for row in rounds)
    least = min(row[name] for row in rounds) / min(row["rust"] for row in rounds)
    return "%5.2f %6.2f %5.2f %5.2f" % (ratios[0], statistics.median(ratios), ratios[-1], least)


def table(programs, databases, work):
    print("microseconds                              | proofs only    ratio            | with clearing  ratio            | before")
    print("                  proofs   steps     Rust |     ours   low middle  high least |     ours   low middle  high least | the proofs")
    for database in databases:
        proofs, steps, rounds = timed(programs, database, work)
        head = "%-17s %6d %7d %8.1f" % (database.stem, proofs, steps, middle(rounds, "rust") / 1e3)
        times = ["%8.1f %s" % (middle(rounds, name) / 1e3, spread(rounds, name)) for name in ("plain", "cleared")]
        print(" | ".join([head, *times, "%8.1f" % (middle(rounds, "before") / 1e3)]), flush=True)


def growth(programs, work):
    print("\nnanoseconds a step, proofs only           |         ours           | ratio")
    print("                    statements       Rust |    low  middle    high |   low middle  high least")
    for kind in ("normal", "compressed"):
        for count in GROWTH:
            _, steps, rounds = timed(programs, work / ("%s-%d.mm" % (kind, count)), work)
            each = sorted(row["plain"] / steps for row in rounds)
            row = (kind, count, middle(rounds, "rust") / steps, each[0], statistics.median(each), each[-1], spread(rounds, "plain"))
            print("%-19s %10d %10.1f | %6.1f  %6.1f  %6.1f | %s" % row, flush=True)


def main():
    if len(sys.argv) not in (5, 6):
        sys.exit(__doc__)
    timer, oracle, corpus, work = (pathlib.Path(word).resolve() for word in sys.argv[1:5])
    clock = pathlib.Path(sys.argv[5]).resolve() if len(sys.argv) == 6 else None
    run(sys.executable, HERE / "make_databases.py", work)
    unifier = work / "unifier.mm"
    unifier.write_bytes(run(oracle, "cut", corpus / "big-unifier.mm", "--statements", 24))
    programs = (timer, oracle, clock)
    table(programs, [corpus / "hol.mm", corpus / "set-2500.mm", unifier, work / "long.mm"], work)
    growth(programs, work)


if __name__ == "__main__":
    main()
