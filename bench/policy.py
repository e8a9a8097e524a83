#!/usr/bin/env python3
"""The worst configurations, at a quarter, a half and the whole of what the limits allow, and the seconds of processor
time and the megabytes that reading each takes; and what it costs to ask them for the realms of many names.

    bench/policy.py PROGRAM

PROGRAM is the built crate `policies_table`, which reads a configuration from its input and prints what became of it.
A configuration has at most 4 MiB and 65,536 entries: users, groups, roles, realms and bindings.
"""
import os
import subprocess
import sys

MOST_BYTES = 4 * 1024 * 1024
MOST_ENTRIES = 65_536
ROLE = '[role.r]\npermissions = ["resultdb.artifacts.get"]\n'
SECRET = 'secret = "0b"\n'


def users(count):
    return "".join(f'[user.u{i}]\ntoken = "t{i}"\n' for i in range(count))


def realm(i, extends="", principals=""):
    lines = f'[realm."p:{i}"]\n'
    if extends:
        lines += f"extends = [{extends}]\n"
    if principals:
        lines += f'bindings = [{{role="r",principals=[{principals}]}}]\n'
    return lines


def members_times_bindings(share):
    """A group of many members, bound in many realms."""
    count = int(21_800 * share)
    members = ",".join(f'"u{i}"' for i in range(count))
    realms = "".join(realm(i, principals='"group:g"') for i in range(count))
    return SECRET + users(count) + f"[group.g]\nmembers = [{members}]\n" + ROLE + realms


def groups_times_bindings(share):
    """A user in many groups, each of them bound in a realm of a chain."""
    count = int(21_800 * share)
    groups = "".join(f'[group.g{i}]\nmembers = ["u0"]\n' for i in range(count))
    realms = "".join(realm(i, f'"p:{i - 1}"' if i else "", f'"group:g{i}"') for i in range(count))
    return SECRET + users(1) + groups + ROLE + realms


def realms_times_users(share):
    """As many realms as users, and one binding that all realms reach."""
    count = int(32_700 * share)
    realms = "".join(realm(i, '"p:0"' if i else "", "" if i else '"user:u0"') for i in range(count))
    return SECRET + users(count) + ROLE + realms


def chain(share):
    """Realms of which each extends the one before, each with a binding of another user."""
    count = int(21_800 * share)
    realms = "".join(realm(i, f'"p:{i - 1}"' if i else "", f'"user:u{i}"') for i in range(count))
    return SECRET + users(count) + ROLE + realms


def bare_chain(share):
    """Realms of which each extends the one before, and nothing else."""
    count = int(65_500 * share)
    return SECRET + "".join(realm(i, f'"p:{i - 1}"' if i else "") for i in range(count))


def cycle(share):
    """Realms of which each extends the next, and the last one the first."""
    count = int(65_500 * share)
    return SECRET + "".join(realm(i, f'"p:{(i + 1) % count}"') for i in range(count))


def between_cycles(share):
    """A long way that leads from a cycle to another, whose names come last."""
    count = int(65_500 * share)
    way = "".join(realm(f"a{i}", f'"p:a{i + 1}"' if i + 1 < count else '"p:z0"') for i in range(count))
    ends = realm("y0", '"p:y1"') + realm("y1", '"p:y0","p:a0"') + realm("z0", '"p:z1"') + realm("z1", '"p:z0"')
    return SECRET + way + ends


def layers(share):
    """Layers of realms, of which each extends all of the layer before."""
    width = int(600 * share ** 0.5)
    rows = []
    for layer in range(2):
        for i in range(width):
            before = ",".join(f'"p:{(layer - 1) * width + j}"' for j in range(width)) if layer else ""
            rows.append(realm(layer * width + i, before))
    return SECRET + "".join(rows)


def long_name_wrong_items(share):
    """A name of half of the bytes, and a list under it of which each item is wrong."""
    name = "n" * int(MOST_BYTES * share / 2)
    items = "1," * int(MOST_BYTES * share / 4 - 100)
    return SECRET + f"[group.{name}]\nmembers = [{items}]\n"


def long_name_wrong_bindings(share):
    """A realm with a name of half of the bytes, and bindings that lack all that they need."""
    name = "n" * int(MOST_BYTES * share / 2)
    items = "{}," * int(MOST_BYTES * share / 6 - 100)
    return SECRET + f"[realm.{name}]\nbindings = [{items}]\n"


def long_name_wrong_texts(share):
    """A role with a name of half of the bytes, and permissions that are none."""
    name = "n" * int(MOST_BYTES * share / 2)
    items = '"",' * int(MOST_BYTES * share / 6 - 100)
    return SECRET + f"[role.{name}]\npermissions = [{items}]\n"


def repeated_principals(share):
    """One binding that names a user and a group again and again."""
    count = int(400_000 * share)
    names = ",".join('"user:u0"' if i % 2 else '"group:g"' for i in range(count))
    return SECRET + users(1) + '[group.g]\nmembers = ["u0"]\n' + ROLE + realm(0, principals=names)


def long_role(share):
    """A role that repeats its permissions, in many bindings."""
    texts = ",".join(['"resultdb.artifacts.get"'] * int(80_000 * share))
    bindings = ",".join(['{role="r",principals=[]}'] * int(60_000 * share))
    return SECRET + f"[role.r]\npermissions = [{texts}]\n" + f'[realm."p:0"]\nbindings = [{bindings}]\n'


def many_bindings(share):
    """More bindings than a configuration may have entries."""
    return SECRET + '[realm."p:0"]\nbindings = [' + "{role='',principals=[]}," * int(170_000 * share) + "]\n"


SHAPES = [
    members_times_bindings, groups_times_bindings, realms_times_users, chain, bare_chain, cycle, between_cycles, layers,
    long_name_wrong_items, long_name_wrong_bindings, long_name_wrong_texts, repeated_principals, long_role, many_bindings,
]


def asked_chain(realms, lines):
    """Realms of which each extends the one before, the first of which binds a user; and comments that ask."""
    rows = "".join(realm(i, f'"p:{i - 1}"' if i else "", "" if i else '"user:u0"') for i in range(realms))
    return SECRET + users(1) + ROLE + rows + lines


def asked_groups(realms, lines):
    """A user in as many groups as there are realms in a chain, each of them bound in one; and comments that ask."""
    count = max(realms // 3, 1)
    groups = "".join(f'[group.g{i}]\nmembers = ["u0"]\n' for i in range(count))
    rows = "".join(realm(i, f'"p:{i - 1}"' if i else "", f'"group:g{i}"') for i in range(count))
    return SECRET + users(1) + groups + ROLE + rows + lines


def asked_apart(realms, lines):
    """Realms that extend none, each of which binds the user; and comments that ask."""
    count = max(realms // 2, 1)
    return SECRET + users(1) + ROLE + "".join(realm(i, principals='"user:u0"') for i in range(count)) + lines


def one_pass(realms, names, times):
    """Lines that ask by one pass for so many names each."""
    line = "# realms t0 " + " ".join(f"p:{k * 7919 % realms}" for k in range(names)) + "\n"
    return line * times


def one_by_one(realms, names, times):
    """Lines that ask for a name each, for each of the twelve permissions."""
    return "".join(f"# ask t0 p:{k * 7919 % realms}\n" for k in range(names)) * times


def microseconds(program, shape, realms, lines, calls):
    """What one of the calls of these lines takes beside the reading, and the megabytes of all."""
    _, plain, _ = run(program, shape(realms, "").encode())
    _, seconds, megabytes = run(program, shape(realms, lines).encode())
    return max(seconds - plain, 0) * 1_000_000 / calls, megabytes


def asks(program):
    """What asks cost in the largest configuration, and in one of three realms."""
    print(f"\n{'asked':<14} {'how':<22} {'largest us':>11} {'smallest us':>11} {'megabytes':>9}")
    for shape in (asked_chain, asked_groups, asked_apart):
        for how, make, names, times in (("a pass, 1 name", one_pass, 1, 100), ("a pass, 500 names", one_pass, 500, 100),
                                        ("a pass, 20,000 names", one_pass, 20_000, 2), ("a single ask", one_by_one, 100, 1)):
            calls = times if make is one_pass else 1200 * times
            large, megabytes = microseconds(program, shape, 60_000, make(60_000, names, times), calls)
            small, _ = microseconds(program, shape, 3, make(3, names, times), calls)
            print(f"{shape.__name__:<14} {how:<22} {large:>11.1f} {small:>11.1f} {megabytes:>9.0f}", flush=True)


def run(program, text):
    """What the program prints, and the seconds of processor time and the megabytes that it takes."""
    child = subprocess.Popen([program], stdin=subprocess.PIPE, stdout=subprocess.PIPE)
    try:
        child.stdin.write(text)
        child.stdin.close()
    except BrokenPipeError:
        pass
    answer = child.stdout.read().decode().strip()
    usage = os.wait4(child.pid, 0)[2]
    return answer, usage.ru_utime + usage.ru_stime, usage.ru_maxrss / 1024


def main():
    if len(sys.argv) != 2:
        sys.exit(__doc__)
    print(f"{'shape':<26} {'share':>5} {'bytes':>9} {'answer':<12} {'seconds':>8} {'megabytes':>9}")
    slow = []
    for shape in SHAPES:
        for share in (0.25, 0.5, 1):
            text = shape(share).encode()
            answer, seconds, megabytes = run(sys.argv[1], text)
            print(f"{shape.__name__:<26} {share:>5} {len(text):>9} {answer[:12]:<12} {seconds:>8.2f} {megabytes:>9.0f}", flush=True)
            if len(text) > MOST_BYTES or seconds > 10 or megabytes > 512:
                slow.append(f"{shape.__name__} at {share}")
    asks(sys.argv[1])
    if slow:
        sys.exit("over 10 seconds, 512 megabytes or 4 MiB: " + ", ".join(slow))


main()
