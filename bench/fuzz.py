#!/usr/bin/env python3
"""Runs the built program on broken inputs: bench/fuzz.py [SECONDS [SEED]].

The documents and scripts of examples/, and the index files that the program writes of these documents, have bytes flipped, cut out, doubled, put
in and taken from one another. Of each run it asks: a status of 0 to 6, at most ten seconds of the processor, no output after a refusal without -k, and no
change of a file that no line of the script names. What fails is kept in a folder that is printed, and the status is 1.
"""
import glob
import os
import random
import resource
import shutil
import subprocess
import sys
import tempfile
import time

TOP = os.path.dirname(os.path.dirname(os.path.abspath(__file__)))
PROGRAM = os.environ.get("VTD", TOP + "/crates/vtd_program/out/vtd_program")
LONGEST = 10
PIECES = [b"<", b">", b"/>", b"</", b"&", b";", b"]]>", b"<![CDATA[", b"<!--", b"-->", b"<?", b"?>", b"\"", b"'", b"=", b" ", b"\t", b"\n", b"\r",
          b"\\", b"\xef\xbb\xbf", b"\xff", b"\xc3", b"\xe2\x80\xa8", b"\0", b"xmlns=\"\"", b"xmlns:p=\"u\"", b"p:", b"[", b"]", b"(", b")", b"//",
          b"::", b"1", b"9" * 40, b"VTDIDX01", b"VTDIDX02", b"\xff\xff\xff\xff", b"\0\0\0\0", b"save\tf\n", b"apply\n", b"elements\n", b"load\ti\n"]


def read(path):
    with open(path, "rb") as file:
        return file.read()


def broken(data, others, chance):
    """The bytes with one to six changes."""
    data = bytearray(data)
    for _ in range(chance.randint(1, 6)):
        at = chance.randint(0, len(data))
        end = min(len(data), at + chance.choice([1, 1, 2, 4, 8, 40, 400]))
        how = chance.randint(0, 6)
        if how == 0 and at < len(data):
            data[at] ^= 1 << chance.randint(0, 7)
        elif how == 1 and at < len(data):
            data[at] = chance.randint(0, 255)
        elif how == 2:
            del data[at:end]
        elif how == 3:
            data[at:at] = data[at:end] * chance.choice([1, 1, 2, 300])
        elif how == 4:
            data[at:at] = chance.choice(PIECES)
        elif how == 5:
            other = chance.choice(others)
            start = chance.randint(0, len(other))
            data[at:end] = other[start:start + chance.choice([4, 40, 400])]
        else:
            del data[at:]
        del data[2000000:]
    return bytes(data)


def run(room, words, script):
    """The status and the output of a run in the room; a run that takes too long ends by a signal, which is a status below 0."""
    done = subprocess.run([PROGRAM] + words, input=script, stdout=subprocess.PIPE, stderr=subprocess.DEVNULL, cwd=room,
                          preexec_fn=lambda: resource.setrlimit(resource.RLIMIT_CPU, (LONGEST, LONGEST)))
    return done.returncode, done.stdout


def fault(room, words, script, kept):
    """What is wrong with a run, or None."""
    status, output = run(room, words, script)
    if not 0 <= status <= 6:
        return "status %d" % status
    lines = output.split(b"\n")
    refused = [i for i, line in enumerate(lines) if line.startswith(b"refused ")]
    if "-k" not in words and refused and refused[0] != len(lines) - 2:
        return "output after a refusal"
    for name, data in kept.items():
        if name.encode() not in script and read(room + "/" + name) != data:
            return "changed file " + name
    return None


def main():
    seconds = float(sys.argv[1]) if len(sys.argv) > 1 else 600
    chance = random.Random(int(sys.argv[2]) if len(sys.argv) > 2 else 1)
    documents = [read(path) for path in sorted(glob.glob(TOP + "/examples/*/*.xml"))]
    scripts = [read(path) for path in sorted(glob.glob(TOP + "/examples/*/script"))]
    scripts.append(b"index\tf\nload\tf\nelements\nvalue\tsum(//@*)\nremove\t//*[2]\napply\nindex\tf\n")
    scripts.append(b"select\t//node()\nvalue\t//text()\nrename\t//*\tx\napply\nset\t//*\ty\nsave\tf\nopen\tf\n")
    room = tempfile.mkdtemp()
    indexes = []
    for data in documents:
        with open(room + "/d", "wb") as file:
            file.write(data)
        run(room, ["d"], b"index\ti\n")
        if os.path.exists(room + "/i"):
            indexes.append(read(room + "/i"))
            os.remove(room + "/i")
    end = time.time() + seconds
    runs = 0
    found = 0
    while time.time() < end:
        document, script = chance.choice(documents), chance.choice(scripts)
        words = ["bystander.xml"]
        how = chance.randint(0, 3)
        if how == 0 and indexes:
            document = chance.choice(indexes)
            words = ["-x"] + words
        if how != 1:
            document = broken(document, documents + indexes, chance)
        if how in (1, 3):
            script = broken(script, scripts, chance)
        if chance.randint(0, 1):
            words = ["-k"] + words
        kept = {"bystander.xml": document, "other.xml": documents[0]}
        for name, data in kept.items():
            with open(room + "/" + name, "wb") as file:
                file.write(data)
        wrong = fault(room, words, script, kept)
        runs += 1
        if wrong:
            found += 1
            keep = tempfile.mkdtemp(prefix="fuzz.")
            for name, data in [("document", document), ("script", script), ("words", " ".join(words).encode())]:
                with open(keep + "/" + name, "wb") as file:
                    file.write(data)
            print("%s: kept in %s" % (wrong, keep), flush=True)
        for name in os.listdir(room):
            os.remove(room + "/" + name)
    shutil.rmtree(room)
    print("fuzz: %d runs, %d wrong" % (runs, found))
    return 1 if found or not runs else 0


if __name__ == "__main__":
    sys.exit(main())
