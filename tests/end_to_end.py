#!/usr/bin/env python3
"""End-to-end checks: the built program, from its words and its input to its output, its line on errors and its status.

    tests/end_to_end.py [AREA..]

Each area is a file beside this one; without words all are checked. No check waits for a deadline, and none looks at the
time that something takes.
"""

import sys

import artifacts
import clients
import command_line
import harness
import journals
import lives
import package
import serve
import sink
import stored_replies
import streams
import verdicts
import workload

AREAS = {
    "stored_replies": stored_replies,
    "lives": lives,
    "verdicts": verdicts,
    "artifacts": artifacts,
    "journals": journals,
    "command_line": command_line,
    "streams": streams,
    "clients": clients,
    "sink": sink,
    "package": package,
    "serve": serve,
    "workload": workload,
}


def main(words):
    if not set(words) <= set(AREAS):
        sys.exit(f"{__doc__}\nThe areas are {', '.join(AREAS)}.")
    harness.build_program()
    counts = [harness.tell(name.replace("_", " "), AREAS[name].CHECKS) for name in words or AREAS]
    return harness.end(sum(passed for passed, _ in counts), sum(failed for _, failed in counts))


if __name__ == "__main__":
    sys.exit(main(sys.argv[1:]))
