"""Moments as the program prints them."""

import datetime
import re
import time

from harness import Wrong

PRINTED = re.compile(r"(\d{4}-\d\d-\d\dT\d\d:\d\d:\d\d)(?:\.(\d{3}|\d{6}))?Z")


def micros(text):
    """A printed moment in microseconds since 1970; its decimals are the fewest that are exact."""
    found = PRINTED.fullmatch(text.decode("ascii"))
    if not found:
        raise Wrong(f"no moment: {text!r}")
    seconds = datetime.datetime.strptime(found[1] + "+0000", "%Y-%m-%dT%H:%M:%S%z").timestamp()
    decimals = found[2] or ""
    if decimals.endswith("000"):
        raise Wrong(f"more decimals than are needed: {text!r}")
    return int(seconds) * 1_000_000 + int((decimals + "000000")[:6])


def now():
    return time.time_ns() // 1000


def moment_in(**span):
    """The moment so far from now, without decimals."""
    moment = datetime.datetime.now(datetime.timezone.utc) + datetime.timedelta(**span)
    return moment.strftime("%Y-%m-%dT%H:%M:%SZ")
