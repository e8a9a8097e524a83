"""The packages: what they hold runs from an empty folder, without the kit and without this tree."""

import io
import pathlib
import shutil
import subprocess
import tarfile
import tempfile

import harness
from harness import FARM, TOP, Wrong, same

FILES = {
    "bin/rdb",
    "lib/pirtskhun/rdb_program",
    "lib/systemd/system/rdb.service",
    "share/doc/pirtskhun/README.md",
    "share/doc/pirtskhun/LICENSE",
    "share/doc/pirtskhun/docs/operations.md",
    "share/doc/pirtskhun/examples/farm.toml",
}


def made(folder):
    """The packages, written to a folder: the tar and the Debian package."""
    ended = subprocess.run([TOP / "package", folder], capture_output=True, text=True)
    if ended.returncode != 0:
        raise Wrong(ended.stderr)
    return [pathlib.Path(line) for line in ended.stdout.splitlines()]


def answers(command, folder):
    """A connection is answered, and its journal counted, by a command with nothing around it but the system."""
    journal = pathlib.Path(folder) / "a.journal"
    environment = {"PATH": "/usr/bin:/bin"}
    ask = harness.request("CreateInvocation", harness.new("u-a"))
    words = [command, "answer", "--config", FARM, "--journal", journal]
    ended = subprocess.run(words, input=ask, capture_output=True, cwd=folder, env=environment, timeout=60)
    same((ended.returncode, ended.stderr, ended.stdout[:15]), (0, b"", b"HTTP/1.1 200 OK"))
    counted = subprocess.run([command, "check", "--journal", journal], capture_output=True, env=environment, timeout=60)
    same((counted.returncode, counted.stdout[:14]), (0, b"invocations 1,"))


def tar_runs_from_an_empty_folder(folder):
    tar, _ = made(folder)
    room = pathlib.Path(folder) / "room"
    with tarfile.open(tar) as packed:
        packed.extractall(room)
    (top,) = room.iterdir()
    missing = {it for it in FILES if not (top / it).is_file()}
    same(missing, set())
    answers(top / "bin/rdb", folder)


def members(deb):
    """The members of an archive of ar, by name."""
    data, at, found = deb.read_bytes(), 8, {}
    same(data[:8], b"!<arch>\n")
    while at < len(data):
        name, size = data[at : at + 16].decode().strip(), int(data[at + 48 : at + 58])
        found[name] = data[at + 60 : at + 60 + size]
        at += 60 + size + size % 2
    return found


def debian_package_has_its_files(folder):
    _, deb = made(folder)
    parts = members(deb)
    same(list(parts), ["debian-binary", "control.tar.gz", "data.tar.gz"])
    with tarfile.open(fileobj=io.BytesIO(parts["control.tar.gz"])) as said:
        control = said.extractfile("./control").read().decode()
    if "Depends: libc6 (>= 2." not in control:
        raise Wrong(control)
    room = pathlib.Path(folder) / "room"
    if shutil.which("dpkg-deb"):
        subprocess.run(["dpkg-deb", "-x", deb, room], check=True)
    else:
        with tarfile.open(fileobj=io.BytesIO(parts["data.tar.gz"])) as files:
            files.extractall(room)
    answers(room / "usr/bin/rdb", folder)


def packages_are_the_same_bytes_again(folder):
    with tempfile.TemporaryDirectory() as one, tempfile.TemporaryDirectory() as other:
        same([it.read_bytes() for it in made(one)] == [it.read_bytes() for it in made(other)], True)


CHECKS = {
    "a tar from an empty folder": tar_runs_from_an_empty_folder,
    "a Debian package": debian_package_has_its_files,
    "the same bytes again": packages_are_the_same_bytes_again,
}
