#!/usr/bin/env python3
"""An encoder of End-Tagged Dense Code and of its byte tree, written from document 004 alone.

    encode.py NAME < TEXT

reads words, divided by white space, and writes what 004 describes: NAME.stream, the codewords one
after another; NAME.tree, the nodes one after another, level by level and in a level by the bytes that
lead to them; NAME.lengths, a line for each node that is there: those bytes and the node's length.

It shares nothing with the engine: words get their codewords by counting codewords up one by one from
the most frequent word on (section 2), and a node is named by the bytes that lead to it (section 4).
"""
import collections
import itertools
import sys

DIGITS = range(128)
LAST = range(128, 256)


def codewords():
    """All codewords in order: digits below 128, and a last symbol from 128 on."""
    for digits in itertools.count():
        for front in itertools.product(DIGITS, repeat=digits):
            for last in LAST:
                yield bytes(front + (last,))


def assignment(words):
    """The codeword of each word, the most frequent first, equal ones by first appearance."""
    frequency = collections.Counter(words)
    order = sorted(frequency, key=lambda word: -frequency[word])
    return dict(zip(order, codewords()))


def tree(sequence):
    """The nodes: each byte of a codeword goes to the node of the bytes before it."""
    nodes = collections.defaultdict(bytearray)
    for codeword in sequence:
        for place in range(len(codeword)):
            nodes[codeword[:place]].append(codeword[place])
    return sorted(nodes.items(), key=lambda node: (len(node[0]), node[0]))


def main():
    name = sys.argv[1]
    words = sys.stdin.buffer.read().split()
    codes = assignment(words)
    sequence = [codes[word] for word in words]
    nodes = tree(sequence)
    with open(name + ".stream", "wb") as out:
        out.write(b"".join(sequence))
    with open(name + ".tree", "wb") as out:
        out.write(b"".join(bytes(node) for _, node in nodes))
    with open(name + ".lengths", "w") as out:
        for path, node in nodes:
            out.write(" ".join("%02X" % byte for byte in path) + ": %d\n" % len(node))


main()
