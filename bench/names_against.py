#!/usr/bin/env python3
"""Times a program on documents that are made against the checks of names, with an empty script: bench/names_against.py PROGRAM
[MEGABYTES [KIND..]], 1 and all kinds if none is given. The program is called with the document's path, as crates/vtd_program's.
Each line tells the kind, the size, the seconds of processor time, the exit status and the peak memory.

sorted, reversed, random: one tag of names, in the order of their bytes, against it, or in neither; last: the same in random order,
with the first name once more at the end, so that it is refused; alike: one tag of names that differ in their last bytes alone;
declarations: one tag of declarations and as many attributes with their prefixes; scopes: names with one of 1,000 prefixes that the
root element declares; apart: as many declarations in the root element as elements in it, each with another prefix."""
import os
import random
import subprocess
import sys
import tempfile


def numbered(size, piece, order=None):
    """So many bytes of pieces of the numbers 0, 1 .., in an order."""
    count = size // len(piece(0))
    numbers = list(range(count))
    if order:
        order(numbers)
    return "".join(map(piece, numbers))


def attribute(number):
    return f" n{number:07}=''"


def last(size):
    return f"<a{numbered(size, attribute, random.Random(1).shuffle)}{attribute(0)}/>"


def declarations(size):
    count = size // 40
    names = "".join(f" xmlns:p{number:06}='u{number:06}'" for number in range(count))
    return f"<a{names}{''.join(f' p{number:06}:b=' + chr(39) * 2 for number in range(count))}/>"


def scopes(size):
    names = "".join(f" xmlns:p{number:03}='u{number}'" for number in range(1_000))
    return f"<a{names}>{numbered(size, lambda number: f'<p{number % 1_000:03}:b/>')}</a>"


def apart(size):
    count = size // 37
    names = "".join(f" xmlns:p{number:06}='u{number:06}'" for number in range(count))
    return f"<a{names}>{''.join(f'<p{number:06}:b/>' for number in range(count))}</a>"


KINDS = {
    "sorted": lambda size: f"<a{numbered(size, attribute)}/>",
    "reversed": lambda size: f"<a{numbered(size, attribute, list.reverse)}/>",
    "random": lambda size: f"<a{numbered(size, attribute, random.Random(1).shuffle)}/>",
    "last": last,
    "alike": lambda size: f"<a{numbered(size, lambda number: ' ' + 'n' * 500 + f'{number:06}=' + chr(39) * 2)}/>",
    "declarations": declarations,
    "scopes": scopes,
    "apart": apart,
}


def main(program, megabytes=1, *kinds):
    size = int(float(megabytes) * 1_000_000)
    with tempfile.TemporaryDirectory() as folder:
        document = os.path.join(folder, "document.xml")
        for kind in kinds or KINDS:
            with open(document, "w") as file:
                file.write(KINDS[kind](size))
            child = subprocess.Popen([program, document], stdin=subprocess.DEVNULL, stdout=subprocess.DEVNULL, stderr=subprocess.DEVNULL)
            _, wait_status, usage = os.wait4(child.pid, 0)
            seconds = usage.ru_utime + usage.ru_stime
            status = os.waitstatus_to_exitcode(wait_status)
            print(f"{kind}: {os.path.getsize(document)} bytes, {seconds:.3f} s, status {status}, {usage.ru_maxrss // 1024} MB", flush=True)


if __name__ == "__main__":
    main(*sys.argv[1:])
