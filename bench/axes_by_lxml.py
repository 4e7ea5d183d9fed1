#!/usr/bin/python3
"""Compares each axis of each node of documents with what lxml answers: bench/axes_by_lxml.py [COUNT [SEED]], 50 documents if no
number is given.

It writes the documents itself, counting the records of each node, asks lxml (Debian's python3-lxml) for the nodes on each axis,
and has the program conformance_queries ask the same of this repository's crates. lxml answers in document order and leaves the
root out: the answers are turned round on the four axes that count backwards, and the root is put where it belongs. The documents
have no CDATA sections, which lxml joins to the texts beside them. What follows an attribute is not asked: lxml leaves out what is in
its element, which follows it in document order and is no descendant of it (XPath 1.0, section 2.2). Nor is what precedes a node
after the root element: lxml may leave out the root element there.
"""
import os
import random
import subprocess
import sys
import tempfile

from lxml import etree

AXES = ["child", "descendant", "parent", "ancestor", "following-sibling", "preceding-sibling", "following", "preceding",
        "attribute", "self", "descendant-or-self", "ancestor-or-self"]
BACKWARD = {"ancestor", "ancestor-or-self", "preceding", "preceding-sibling"}
TESTS = {"node()": "node()", "*": "*", "text()": "text()", "comment()": "comment()",
         "processing-instruction()": "processing-instruction()", "{}b": "b"}


class Document:
    """A document that is written piece by piece, with the index of the first record of each node."""

    def __init__(self, chance):
        self.chance, self.text, self.records, self.contexts = chance, [], 1, []
        for _ in range(chance.randrange(3)):
            self.misc()
        self.element(0)
        for _ in range(chance.randrange(3)):
            self.misc()
        self.text = "".join(self.text)

    def take(self, count):
        self.records += count
        return self.records - count

    def misc(self):
        if self.chance.random() < 0.5:
            self.text.append("<!--c-->")
            self.contexts.append((self.take(1), "comment"))
        else:
            self.text.append("<?p d?>")
            self.contexts.append((self.take(2), "instruction"))

    def element(self, depth):
        name = self.chance.choice("abc")
        at = self.take(1)
        self.contexts.append((at, "element"))
        self.text.append("<" + name)
        for attribute in self.chance.sample("uvwx", self.chance.randrange(4)):
            self.text.append(f' {attribute}="1"')
            self.contexts.append((self.take(2), "attribute"))
        self.text.append(">")
        last_text = False
        for _ in range(self.chance.randrange(5) if depth < 6 else 0):
            kind = self.chance.random()
            if kind < 0.3 and not last_text:
                self.text.append("t")
                self.contexts.append((self.take(1), "text"))
                last_text = True
                continue
            last_text = False
            if kind < 0.5:
                self.misc()
            else:
                self.element(depth + 1)
        self.text.append(f"</{name}>")


def keys(tree, indexes):
    """The index of each node of lxml's, in document order."""
    found = {}
    order = iter(indexes)

    def visit(node):
        found[(id(node), "node")] = next(order)[0]
        kept.append(node)
        for name in node.attrib if isinstance(node.tag, str) else ():
            found[(id(node), "@" + name)] = next(order)[0]
        if isinstance(node.tag, str) and node.text:
            found[(id(node), "text")] = next(order)[0]
        for child in node if isinstance(node.tag, str) else ():
            visit(child)
            if child.tail:
                found[(id(child), "tail")] = next(order)[0]

    kept = []
    root = tree.getroot()
    for node in list(root.itersiblings(preceding=True))[::-1] + [root] + list(root.itersiblings()):
        visit(node)
    return found, kept


def index_of(found, node):
    if isinstance(node, str):
        parent = node.getparent()
        part = "@" + node.attrname if node.is_attribute else "text" if node.is_text else "tail"
        return found[(id(parent), part)]
    return found[(id(node), "node")]


def from_each(tree, kept):
    """Each node but the root: an element of lxml's, and the path from it to the node."""
    for node in kept:
        yield node, "self::node()", (id(node), "node")
        if not isinstance(node.tag, str):
            continue
        for name in node.attrib:
            yield node, "attribute::" + name, (id(node), "@" + name)
        place = 0
        if node.text:
            place += 1
            yield node, f"child::node()[{place}]", (id(node), "text")
        for child in node:
            place += 1
            if child.tail:
                place += 1
                yield node, f"child::node()[{place}]", (id(child), "tail")


def rows(document):
    tree = etree.ElementTree(etree.fromstring(document.text.encode()))
    found, kept = keys(tree, document.contexts)
    for node, path, key in from_each(tree, kept):
        at = found[key]
        top = node.getparent() is None and key[1] == "node"
        for axis in AXES:
            if axis == "following" and key[1].startswith("@"):
                continue
            if axis == "preceding" and top and not isinstance(node.tag, str):
                continue
            for ours, test in TESTS.items():
                got = node.xpath(f"{path}/{axis}::{test}[parent::node()]")
                nodes = sorted(index_of(found, it) for it in got)
                if axis in BACKWARD:
                    nodes.reverse()
                if ours == "node()" and (axis.startswith("ancestor") or (axis == "parent" and top)):
                    nodes.append(0)
                yield f"{at} {axis} {ours} => " + (" ".join(map(str, nodes)) or "none")


def main():
    count = int(sys.argv[1]) if len(sys.argv) > 1 else 50
    chance = random.Random(int(sys.argv[2]) if len(sys.argv) > 2 else 1)
    top = os.path.dirname(os.path.dirname(os.path.abspath(__file__)))
    crate = os.path.join(top, "crates", "conformance_queries")
    with tempfile.NamedTemporaryFile("w", suffix=".txt", delete=False, encoding="utf-8") as file:
        file.write("table: axes\n")
        for _ in range(count):
            document = Document(chance)
            file.write(f"given: {document.text}\n")
            for row in rows(document):
                file.write(row + "\n")
    subprocess.run(["rt", "run", "--", file.name], cwd=crate, check=True)
    os.unlink(file.name)


if __name__ == "__main__":
    main()
