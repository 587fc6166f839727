#!/usr/bin/env python3
"""Compares the answers of a program `concord` with those of reference.py.

    compare.py PROGRAM FOLDER

The folder, and one that is made of few different words so that phrases overlap
and recur, are indexed by the program. Then phrases are drawn: of words that
follow each other, also from one document to the next, with a word exchanged,
and with words that nobody used. Each command is asked about them, and what it
prints as a table and its exit status must be what the reference prints and
returns. CONCORD_SEED gives the seed.
"""

import io
import os
import random
import subprocess
import sys
import tempfile

import reference

# How many phrases are drawn for a folder.
ROUNDS = 25


# Takes the place of standard output, and keeps what is written.
class Kept:
    def __init__(self):
        self.buffer = io.BytesIO()


# What the reference prints and returns for the arguments of a command.
def expected(collection, arguments):
    options = reference.parser().parse_args(["-", *arguments])
    printed = sys.stdout
    sys.stdout = Kept()
    try:
        found = options.answer(collection, options)
        return sys.stdout.buffer.getvalue(), 0 if found else 1
    finally:
        sys.stdout = printed


# What the program prints and returns for the same arguments. Of a count only
# the number is kept: the reason behind a 0 is said by the program alone.
def answered(program, index, arguments):
    command, *rest = arguments
    table = [] if command == "count" else ["--tsv"]
    run = subprocess.run([program, command, index, *rest, *table],
                         stdout=subprocess.PIPE, stderr=subprocess.DEVNULL)
    printed = run.stdout
    if command == "count":
        printed = printed.split()[0] + b"\n"
    return printed, run.returncode


# A phrase of one to five words.
def draw_phrase(draw, words):
    length = min(draw.randint(1, 5), len(words))
    start = draw.randrange(len(words) - length + 1)
    phrase = words[start:start + length]
    chance = draw.random()
    if chance < 0.15:
        phrase[draw.randrange(length)] = draw.choice(words)
    elif chance < 0.2:
        phrase[draw.randrange(length)] = draw.choice(["nobodysword", "\u0142\u00f3d\u017a", "\u0153uf"])
    if draw.random() < 0.2:
        phrase = [word.upper() for word in phrase]
    return draw.choice([" ", ", ", " \u2014 ", "\u2019"]).join(phrase)


# The arguments of commands about a collection.
def draw_questions(draw, collection, rounds):
    words = collection.words
    yield ["text"]
    yield ["words"]
    yield ["words", "--all"]
    for _ in range(rounds):
        phrase = draw_phrase(draw, words)
        yield ["count", phrase]
        yield ["list", phrase]
        yield ["list", phrase, "-n", str(draw.randint(1, 9)), "-w", str(draw.randint(0, 9)),
               "--next", str(draw.randint(0, len(words)))]
        yield ["list", phrase, "--sort", draw.choice(["left", "right"]), "-w", str(draw.randint(0, 4))]
        yield ["documents", phrase]
        yield ["documents", phrase, "--all"]
        yield ["neighbours", draw.choice(words), "--span", str(draw.randint(1, 16)), "-n", str(draw.randint(0, 9))]
        yield ["words", "-n", str(draw.randint(0, 40))]


# Writes a folder of letters of few different words.
def write_folder(draw, folder):
    words = ["a", "b", "ab", "\u00e4", "\u00c4b", "\u00df", "x1", "don\u2019t"]
    for number in range(40):
        text = " ".join(draw.choice(words) for _ in range(draw.randint(0, 30)))
        path = os.path.join(folder, "%02d" % (number // 10), "%02d.txt" % number)
        os.makedirs(os.path.dirname(path), exist_ok=True)
        with open(path, "wb") as file:
            file.write(text.encode("utf-8" if number % 3 else "cp1252"))


# Compares all answers about a folder; gives their number.
def compare(program, folder, draw, rounds):
    with tempfile.TemporaryDirectory() as place:
        index = os.path.join(place, "letters.concord")
        subprocess.run([program, "index", folder, "-o", index], check=True,
                       stdout=subprocess.DEVNULL, stderr=subprocess.DEVNULL)
        collection = reference.read_collection(folder)
        number = 0
        for arguments in draw_questions(draw, collection, rounds):
            wanted, given = expected(collection, arguments), answered(program, index, arguments)
            if wanted != given:
                sys.exit("%s\nwanted %r\nbut got %r" % (arguments, wanted, given))
            number += 1
        return number


# Compares the answers about both folders.
def main():
    program, folder = sys.argv[1:]
    draw = random.Random(int(os.environ.get("CONCORD_SEED", "1")))
    number = compare(program, folder, draw, ROUNDS)
    with tempfile.TemporaryDirectory() as made:
        write_folder(draw, made)
        number += compare(program, made, draw, ROUNDS)
    print("%d answers of concord are those of the reference" % number)


if __name__ == "__main__":
    main()
