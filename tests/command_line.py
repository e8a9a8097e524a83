"""The words of the command line, and the configuration that they name."""

import pathlib
import shutil
import subprocess

from harness import FARM, RDB, SECONDS, TOP, Wrong, built, expect, same, unread, words
from stored_replies import example

HELP = b"""answer --config PATH --journal PATH
check --journal PATH
serve --config PATH --journal PATH --listen ADDR --workers K [--connections N]
sink --config PATH --server ADDR --invocation ID --format tap|junit [--prefix TEXT]
workload --journal PATH --number N --count M
--help
--version
"""


def configurations(folder):
    """A configuration that is refused, one that isn't there, and one whose reads fail: nothing is read or answered."""
    wrong = pathlib.Path(folder) / "wrong.toml"
    for text, line, status in (
        (b"secret", b"rdb: configuration refused: 1 NotToml\n", 2),
        (b'secret = "0b"\nusers = 1\n', b"rdb: configuration refused: 8 BadShape\n", 2),
        (b'secret = "0"\n', b"rdb: configuration refused: 2 BadName\n", 2),
        (b"#" * (4 * 1024 * 1024 + 1), b"rdb: configuration refused: 7 TooMany\n", 2),
        (None, b"rdb: fault of config\n", 4),
    ):
        wrong.unlink(missing_ok=True)
        if text is not None:
            wrong.write_bytes(text)
        expect(unread(words(folder, config=wrong)), b"", line, status)
    expect(unread(words(folder, config=folder)), b"", b"rdb: fault of config\n", 4)  # reads of a folder fail


def configurations_at_their_bounds(folder):
    """What is read at its bound, and refused past it, by the program that tells what becomes of configurations."""
    tables = 'secret = "0b"\n[user.a]\ntoken = "a"\n[role.r]\npermissions = ["resultdb.artifacts.get"]\n'
    binding = 'bindings = [{ role = "r", principals = ["user:a"] }]\n'
    chain = [f'[realm."p:{n:05}"]\n{binding}' + (f'extends = ["p:{n - 1:05}"]\n' if n else "") for n in range(30_000)]
    asks = "# user a\n# ask a p:29999\n# realms a p:29999\n# listed a p:29999\n"
    many = 'secret = "0b"\n[realm.p]\nbindings = [' + '{role="",principals=[]},' * 65_536 + "]\n"
    for text, told in (
        (tables + "".join(chain) + asks, b"read\na\nmay resultdb.artifacts.get\nx\n-\n"),
        (" " * 4_194_305, b"7 TooMany 4194305\n"),
        (many, b"7 TooMany 65537\n"),
    ):
        done = subprocess.run([built("policies_table")], input=text.encode(), capture_output=True, timeout=SECONDS)
        expect((done.stdout, done.stderr, done.returncode), told, b"", 0)


def constant_texts(folder):
    """--help and --version, each as the only word; and where nobody takes them."""
    for word, text in (("--help", HELP), ("--version", b"rdb 0.1.0\n")):
        expect(unread([RDB, word]), text, b"", 0)
        with open("/dev/full", "wb") as full:
            done = subprocess.run([RDB, word], stdout=full, stderr=subprocess.PIPE, timeout=SECONDS)
        expect((done.stdout, done.stderr, done.returncode), None, b"rdb: fault of output\n", 4)


def refused_words(folder):
    """Words outside the grammar: nothing is read or answered."""
    taken = [str(word) for word in words(folder)[1:]]
    for wrong in (
        [],
        ["answer"],
        ["serve"],
        ["serve"] + taken[1:],
        taken + ["more"],
        taken + taken[1:3],
        taken[:3] + ["--journal", ""],
        taken[:3] + ["--journal", "-j"],
        ["--help", "--version"],
    ):
        expect(unread([RDB, *wrong]), b"", b"rdb: words refused\n", 1)


def words_in_another_spelling(folder):
    """The options in the other order, with `=`."""
    done = subprocess.run(
        [RDB, "answer", f"--journal={folder}/farm.journal", "--config", FARM],
        input=example("no-caller", "http"),
        capture_output=True,
        timeout=SECONDS,
    )
    expect((done.stdout, done.stderr, done.returncode), example("no-caller", "reply"), b"", 0)


def a_link_to_it(folder):
    """By a symbolic link, and by a link to that one, it is the same program."""
    first, second = pathlib.Path(folder) / "first", pathlib.Path(folder) / "second"
    first.symlink_to(RDB)
    second.symlink_to("first")
    for link in (first, second):
        done = subprocess.run([link, "--version"], capture_output=True, timeout=SECONDS)
        same((done.stdout[:4], done.stderr, done.returncode), (b"rdb ", b"", 0))


def no_program(folder):
    """Where there is nothing to build it from, the status is none of the program's own, by a link, too."""
    for script in (RDB, TOP / "build"):
        shutil.copy2(script, folder)
    link = pathlib.Path(folder) / "link"
    link.symlink_to("rdb")
    for script in ("rdb", "link", "build"):
        done = subprocess.run([f"{folder}/{script}", "--version"], capture_output=True, timeout=SECONDS)
        same((done.stdout, done.returncode), (b"", 70))
        if not done.stderr:
            raise Wrong("nothing says why")


CHECKS = {
    "configurations that aren't accepted": configurations,
    "configurations at their bounds": configurations_at_their_bounds,
    "refused words": refused_words,
    "words in another spelling": words_in_another_spelling,
    "help and version": constant_texts,
    "by symbolic links": a_link_to_it,
    "a program that can't be built": no_program,
}
