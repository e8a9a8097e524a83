#!/usr/bin/env python3
"""What the gate costs: processor minutes of each crate's proof, tests and wrong bodies.

    tests/gate_cost.py run LOG [WORD..]   runs `rt ci WORD..` and writes to LOG what each of its commands took
    tests/gate_cost.py watch LOG PID      does so for an rt ci that is running, from now on
    tests/gate_cost.py table LOG..        makes the table of a log, or of those of several runs
    tests/gate_cost.py write LOG..        writes docs/gate-cost.md from the log of a run, or of several
    tests/gate_cost.py edits LOG..        makes the table of the wrong bodies

A run begins with what earlier ones kept. So where one was cut off, its log and those of the runs after it tell together
what one run would have: of what was done twice, as a crate that changed between them, the last counts.

rt prints no times, so its commands are looked at in /proc a few times a second while they run, with the processes that
they have waited for. What is missed is the last part of a second of each; the table tells how much in all. Only what a
run does costs something: `run LOG --anew` proves everything.
"""

import collections
import json
import os
import pathlib
import re
import subprocess
import sys
import textwrap
import time

TOP = pathlib.Path(__file__).resolve().parent.parent
TICKS = os.sysconf("SC_CLK_TCK")
PAUSE = 0.2
PAGE = TOP / "docs/gate-cost.md"
PARTS = ("proof", "tests", "wrong bodies")
BUDGET = {"proof": 4, "tests": 4, "wrong bodies": 3}


def read(path):
    try:
        with open(path, "rb") as file:
            return file.read()
    except OSError:
        return b""


def stat_of(pid):
    """A process's parent, and the seconds of processor time of it and of those that it waited for."""
    fields = read(f"/proc/{pid}/stat").rpartition(b")")[2].split()
    if len(fields) < 15:
        return None
    return int(fields[1]), sum(int(ticks) for ticks in fields[11:15]) / TICKS


def part_of(pid):
    """What a command of rt is for: (crate, part, wrong body's number or None), or None where it isn't of a crate."""
    words = read(f"/proc/{pid}/cmdline").decode(errors="replace").split("\0")
    try:
        folder = os.readlink(f"/proc/{pid}/cwd")
    except OSError:
        return None
    crate = next((after for word, after in zip(words, words[1:]) if word == "--crate-name"), None)
    if crate:
        if "/rt-edit-" in folder:
            kept = next((after for word, after in zip(words, words[1:]) if word == "--incremental"), "")
            number = re.search(r"/(\d+)$", kept)
            return crate, "wrong bodies", int(number[1]) if number else None
        return crate, "tests" if "--test" in words else "proof", None
    ran = re.search(r"/bin/(\w+?)_tests$", words[-2] if len(words) > 1 else "")
    return (ran[1], "tests", None) if ran else None


def watch(rt, is_running, log):
    """Looks at rt's commands until it ends, and writes each of them to the log when it has ended."""
    known = {}
    while is_running():
        now = set()
        for name in os.listdir("/proc"):
            found = stat_of(name) if name.isdigit() else None
            if not found or found[0] != rt:
                continue
            # A number is given to another process once its own has ended.
            seen = known.get(name)
            if seen and found[1] < seen[1]:
                write(log, *known.pop(name))
                seen = None
            what = seen[0] if seen and seen[0] else part_of(name)
            known[name] = what, found[1]
            now.add(name)
        for name in [it for it in known if it not in now]:
            write(log, *known.pop(name))
        time.sleep(PAUSE)
    for what, seconds in known.values():
        write(log, what, seconds)


def write(log, what, seconds):
    if what and seconds:
        crate, part, number = what
        log.write(json.dumps({"crate": crate, "part": part, "number": number, "seconds": round(seconds, 2)}) + "\n")
        log.flush()


def run(path, words):
    with open(path, "w", encoding="utf-8") as log:
        began = time.time()
        program = subprocess.Popen(["rt", "ci", *words], cwd=TOP)
        watch(program.pid, lambda: os.waitid(os.P_PID, program.pid, os.WEXITED | os.WNOHANG | os.WNOWAIT) is None, log)
        _, status, used = os.wait4(program.pid, 0)
        whole = {"seconds": used.ru_utime + used.ru_stime, "wall": time.time() - began, "words": words}
        whole |= {"of": state(), "processors": len(os.sched_getaffinity(0)), "day": time.strftime("%Y-%m-%d", time.gmtime())}
        log.write(json.dumps(whole) + "\n")
    print("\n".join(table([path])))
    return os.waitstatus_to_exitcode(status)


def state():
    """Which sources under which kit."""
    commit = subprocess.run(["git", "rev-parse", "--short", "HEAD"], cwd=TOP, capture_output=True, text=True).stdout.strip()
    kit = subprocess.run(["rt", "version"], capture_output=True, text=True).stdout.strip()
    return f"{commit}, with {kit}"


def entries(paths):
    """What the commands of each crate's part took, in the last run that had any; and of each run that ended what it
    took whole. A program has several: its check, and a build by each compiler."""
    last, wholes = {}, []
    for path in paths:
        lines = [json.loads(line) for line in pathlib.Path(path).read_text().splitlines()]
        wholes += [line for line in lines if "wall" in line]
        run = {}
        for line in lines:
            if "crate" in line:
                key = line["crate"], line["part"], line["number"]
                run[key] = line | {"seconds": line["seconds"] + run.get(key, {"seconds": 0})["seconds"]}
        last |= run
    return [*last.values()], wholes


def crates():
    lines = (TOP / "crates.txt").read_text().splitlines()
    return [line.partition("#")[0].partition(":")[0].split()[0] for line in lines if ":" in line.partition("#")[0]]


def minutes(seconds):
    return f"{seconds / 60:.1f}"


def table(paths):
    """The lines of the table."""
    found, wholes = entries(paths)
    sums = collections.Counter()
    for entry in found:
        sums[entry["crate"], entry["part"]] += entry["seconds"]
    lines = ["| Crate | Proof | Tests | Wrong bodies | Of them |", "|---|---|---|---|---|"]
    names = [name for name in crates() if any((name, part) in sums for part in PARTS)]
    for name in names:
        cells = []
        for part in PARTS:
            cost = sums[name, part]
            cell = f"**{minutes(cost)}**" if cost > 60 * BUDGET[part] else minutes(cost)
            cells.append(cell if cost else "")
        edits = len(list((TOP / "crates" / name / "must-fail").glob("*.edit")))
        lines.append(f"| `{name}` | {' | '.join(cells)} | {edits} |".replace("|  |", "| |").replace("|  |", "| |"))
    totals = [sum(sums[name, part] for name in names) for part in PARTS]
    lines.append(f"| All | {' | '.join(minutes(total) for total in totals)} | |")
    all_minutes = f"for {len(names)} crates"
    if len(paths) == len(wholes) == 1:
        whole, rest = wholes[0], wholes[0]["seconds"] - sum(totals)
        lines += ["", f"{minutes(whole['seconds'])} processor minutes in {minutes(whole['wall'])} minutes {all_minutes}, "]
        lines[-1] += f"{minutes(rest)} of them in no crate's row."
    else:
        lines += ["", f"{minutes(sum(totals))} processor minutes {all_minutes}."]
    return lines


def write_page(paths):
    wholes = entries(paths)[1]
    if not wholes:
        sys.exit("only the log of a whole run says what the gate costs")
    whole = wholes[-1]
    words = " ".join(["rt ci", *whole["words"]])
    runs = "" if len(paths) == 1 else f", in {len(paths)} runs of which each went on where the one before was cut off"
    front = (
        f"Written by `tests/gate_cost.py`, of `{words}` over {whole['of']}, on {whole['day']}{runs}, on a machine of "
        f"{whole['processors']} processors. All figures are processor minutes, and bold is what is over the budget of "
        "[CONTRIBUTING.md](../CONTRIBUTING.md#the-gates-budget). Another machine has been seen to take half as much again, "
        "so that figures of one machine alone are compared."
    )
    lines = ["# What the gate costs", "", *textwrap.wrap(front, 120, break_on_hyphens=False), "", *table(paths)]
    PAGE.write_text("\n".join(lines) + "\n")


def edits(paths):
    """By wrong body: those that were tried over what the crate's own check proved, and what that check took."""
    found, _ = entries(paths)
    sums = collections.Counter()
    for entry in found:
        if entry["part"] == "wrong bodies":
            sums[entry["crate"], entry["number"]] += entry["seconds"]
    print("| Crate | Wrong body | Seconds |\n|---|---|---|")
    for (name, number), seconds in sorted(sums.items(), key=lambda it: (it[0][0], -it[1])):
        files = sorted((TOP / "crates" / name / "must-fail").glob("*.edit"))
        edit = "(the check that they begin with, and those from nothing)" if number is None else None
        edit = edit or (files[number].stem if number < len(files) else f"number {number}")
        print(f"| `{name}` | {edit} | {seconds:.0f} |")


def main(words):
    if words[:1] == ["run"] and len(words) > 1:
        return run(words[1], words[2:])
    if words[:1] == ["watch"] and len(words) == 3 and words[2].isdigit():
        with open(words[1], "w", encoding="utf-8") as log:
            watch(int(words[2]), lambda: stat_of(words[2]) is not None, log)
        print("\n".join(table([words[1]])))
        return 0
    if len(words) > 1 and words[0] in ("table", "write", "edits"):
        if words[0] == "table":
            print("\n".join(table(words[1:])))
        else:
            (write_page if words[0] == "write" else edits)(words[1:])
        return 0
    sys.exit(__doc__)


if __name__ == "__main__":
    sys.exit(main(sys.argv[1:]))
