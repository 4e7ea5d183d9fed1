#!/usr/bin/env python3
"""Asks the built program on both sides of the limits that are too large for tables: bench/limits.py [PART ..].

The parts: sizes (scripts, staged text, a number of -g), large (documents of 1 GiB, an index file that is too long), memory (small address
spaces), stack (expressions of 4,096 bytes, and in how large a stack each is
answered). With no part all are asked. Each line says what was asked, the last line of the output,
the status, seconds of the processor and bytes of memory; what is not as it is to be is marked, and the status is 1.
"""
import os
import resource
import subprocess
import sys
import tempfile

TOP = os.path.dirname(os.path.dirname(os.path.abspath(__file__)))
PROGRAM = os.environ.get("VTD", TOP + "/crates/vtd_program/out/vtd_program")
LONGEST_DOCUMENT = 1073741823
LONGEST_SCRIPT = 16777216
MOST_STAGED = 268435456
wrong = 0


def ask(what, words, script, status, last, room, limits=()):
    """Runs the program and prints a line; `last` is the last line that is wanted, None for any, and `status` a list of those that may come."""
    global wrong

    def bounded():
        for which, value in limits:
            resource.setrlimit(which, (value, value))
    with tempfile.TemporaryFile() as into, tempfile.TemporaryFile() as out:
        into.write(script)
        into.seek(0)
        process = subprocess.Popen([PROGRAM] + words, stdin=into, stdout=out, stderr=subprocess.DEVNULL, cwd=room, preexec_fn=bounded)
        _, ended, used = os.wait4(process.pid, 0)
        process.returncode = 0
        out.seek(max(0, out.seek(0, 2) - 200))
        said = out.read().decode(errors="replace").rstrip("\n").split("\n")[-1][:60]
    got = os.WEXITSTATUS(ended) if os.WIFEXITED(ended) else -os.WTERMSIG(ended)
    well = got in status and (last is None or said == last)
    wrong += not well
    print("%s%s | `%s` | %d | %.2f s | %d MB" % ("" if well else "WRONG ", what, said, got, used.ru_utime + used.ru_stime, used.ru_maxrss // 1000), flush=True)


def write(path, pieces):
    with open(path, "wb") as file:
        for piece, count in pieces:
            block = max(1, min(count, 1000000 // max(1, len(piece))))
            for _ in range(count // block):
                file.write(piece * block)
            file.write(piece * (count % block))


def sizes(room):
    write(room + "/a", [(b"<a/>", 1)])
    ask("a script of 16,777,216 bytes", ["a"], b"\n" * LONGEST_SCRIPT, [0], "", room)
    ask("one byte more", ["a"], b"\n" * (LONGEST_SCRIPT + 1), [1], "refused script-long", room)
    ask("a line of 65,536 bytes", ["a"], b"x" * 65536, [1], "refused command", room)
    ask("one byte more", ["a"], b"x" * 65537, [1], "refused line-long", room)
    write(room + "/b", [(b"<a>", 1), (b"<b/>", 8192), (b"</a>", 1)])
    staged = b"before\t/a/b\t" + b"x" * (MOST_STAGED // 8192) + b"\n"
    ask("268,435,456 bytes staged", ["b"], staged, [0], "staged 8192", room)
    ask("one byte more", ["b"], staged + b"before\t/a/b[1]\tx\n", [1], "refused text-long", room)
    ask("-g 1000000", ["-g", "1000000"], b"", [0], "value 490000", room)
    ask("-g 1000001", ["-g", "1000001"], b"", [2], "", room)
    ask("-g 0", ["-g", "0"], b"", [2], "", room)


def large(room):
    write(room + "/text", [(b"<a>", 1), (b"x", LONGEST_DOCUMENT - 7), (b"</a>", 1)])
    ask("a document of 1,073,741,823 bytes, one text", ["text"], b"value\tstring-length(/a)\n", [0], "value %d" % (LONGEST_DOCUMENT - 7), room)
    with open(room + "/text", "ab") as file:
        file.write(b"\n")
    ask("one byte more", ["text"], b"", [1], "refused file-long", room)
    os.remove(room + "/text")
    order = b'<order n="0123456"><item qty="3">42</item></order>'
    count = (LONGEST_DOCUMENT - 17) // len(order)
    rest = LONGEST_DOCUMENT - 17 - count * len(order)
    write(room + "/orders", [(b"<orders>", 1), (order, count), (b" ", rest), (b"</orders>", 1)])
    ask("1,073,741,823 bytes of orders", ["orders"], b"", [0], "", room)
    ask("with a query", ["orders"], b"value\tcount(//item[@qty = 3])\n", [0], "value %d" % count, room)
    ask("with a query and an edit", ["orders"], b"value\tsum(//@qty)\nset\t/orders/order[7]/item\t43\nsave\tnew\n", [0],
        "saved %d" % LONGEST_DOCUMENT, room)
    os.remove(room + "/orders")
    if os.path.exists(room + "/new"):
        os.remove(room + "/new")
    count = (LONGEST_DOCUMENT - 7) // 5
    write(room + "/dense", [(b"<a>", 1), (b"<b/>x", count), (b"</a>", 1)])
    ask("1 GiB densest in records", ["dense"], b"", [0], "", room)
    ask("its index file, longer than 4,294,967,295 bytes", ["dense"], b"index\ti\n", [1], "refused index-long", room)
    os.remove(room + "/dense")


def memory(room):
    order = b'<order n="0123456"><item qty="3">42</item></order>'
    write(room + "/orders", [(b"<orders>", 1), (order, 400000), (b"</orders>", 1)])
    script = b"value\tcount(//item[@qty = 3])\nselect\t//item\nset\t//item\t43\napply\nsave\tnew\n"
    for megabytes in [2, 4, 8, 16, 24, 32, 48, 64, 96, 128, 192, 256, 512]:
        ask("%d MB of addresses for 20 MB of orders" % megabytes, ["orders"], script, [0, 6] if megabytes > 4 else [0, 6, 127, -6, -9, -11], None, room,
            [(resource.RLIMIT_AS, megabytes * 1000000)])


def least_stack(room, form):
    """The least of 1, 2, 4 and 8 MB of stack in which the expression is answered; 0 for none."""
    for megabytes in [1, 2, 4, 8]:
        size = megabytes << 20
        done = subprocess.run([PROGRAM, "r"], input=b"value\t" + form + b"\n", stdout=subprocess.DEVNULL, cwd=room,
                              preexec_fn=lambda: resource.setrlimit(resource.RLIMIT_STACK, (size, size)))
        if done.returncode == 0:
            return megabytes
    return 0


def stack(room):
    write(room + "/r", [(b"<a>", 1), (b"<b><c>1</c></b>", 50), (b"</a>", 1)])
    forms = {
        "minus": b"-" * 4095 + b"1",
        "sums": b"1" + b"+1" * 2047,
        "products": b"1" + b"*1" * 2047,
        "or": b"0" + b" or 0" * 819,
        "and": b"1" + b" and 1" * 682,
        "equal": b"1" + b"=1" * 2047,
        "less": b"1" + b"<1" * 2047,
        "unions": b"/" + b"|/" * 2047,
        "steps": b"/a" + b"/*" * 2047,
        "descendants": b"/a" + b"//." * 1364,
        "parents": b"/a" + b"/.." * 1364,
        "predicates": b"/a" + b"[1]" * 1364,
        "filters": b"(/a)" + b"[1]" * 1364,
        "brackets": b"(" * 64 + b"1" + b")" * 64,
        "nested predicates": b"/a" + b"[b" * 63 + b"[1]" + b"]" * 63,
        "nested calls": b"not(" * 64 + b"1" + b")" * 64,
        "arguments": b"concat(1" + b",1" * 2043 + b")",
        "minus and brackets": b"-(" * 64 + b"1" + b")" * 64,
    }
    for name, form in forms.items():
        ask("%s, %d bytes, %d MB of stack at least" % (name, len(form), least_stack(room, form)), ["r"], b"value\t" + form + b"\n", [0], None, room)


def main():
    parts = {"sizes": sizes, "memory": memory, "stack": stack, "large": large}
    for name in sys.argv[1:] or parts:
        with tempfile.TemporaryDirectory() as room:
            parts[name](room)
    return 1 if wrong else 0


if __name__ == "__main__":
    sys.exit(main())
