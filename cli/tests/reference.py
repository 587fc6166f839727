#!/usr/bin/env python3
"""What `concord ... --tsv` should print, worked out by brute force.

    reference.py FOLDER count PHRASE
    reference.py FOLDER list PHRASE [-n LINES] [-w WORDS] [--next PLACE]
                                    [--sort left|right]
    reference.py FOLDER words [-n N | --all]
    reference.py FOLDER documents PHRASE [--all]
    reference.py FOLDER neighbours WORD [--span S] [-n ROWS]
    reference.py FOLDER text

The folder is read directly; there is no index. The collection is one plain
list of words, and every question is answered by walking along that list.
`count` prints the number alone, the others print a header line and rows with
tabs between the columns, in UTF-8.

Exit status: 0; 1 if nothing is found; 2 if something is refused.
"""

import argparse
import collections
import functools
import os
import stat
import sys
import unicodedata

# Stands for a letter, digit or mark that ISO 8859-1 does not have.
FOREIGN = -1

# A byte that the letter table takes for a separator.
BLANK = 0x20

# Characters that leave nothing behind: the word goes on across them.
DROPPED = {0x00AD, 0x200C, 0x200D, 0x2060, 0xFEFF}

# Characters above U+00FF that are written with another byte.
REWRITTEN = {0x2018: 0x27, 0x2019: 0x27, 0x201B: 0x27, 0x02BC: 0x27,
             0x2010: 0x2D, 0x2011: 0x2D}

# Combining marks that may follow a base letter.
MARKS = {0x0300, 0x0301, 0x0302, 0x0303, 0x0308, 0x030A, 0x0327}

# The letters of words with their diacritics taken off, for sorting.
PLAIN_LETTERS = {}
for _letters, _plain in (("àáâãäå", "a"), ("æ", "ae"), ("ç", "c"),
                         ("èéêë", "e"), ("ìíîï", "i"), ("ð", "d"),
                         ("ñ", "n"), ("òóôõöø", "o"), ("ùúûü", "u"),
                         ("ýÿ", "y"), ("þ", "th"), ("ß", "ss")):
    for _letter in _letters:
        PLAIN_LETTERS[ord(_letter)] = _plain


class Refused(Exception):
    """Something that cannot be answered; its text goes to standard error."""


# A document: its name and the places from `start` up to but not with `end`.
Document = collections.namedtuple("Document", "name start end")

# A collection: all words in one list, and the documents in their order.
Collection = collections.namedtuple("Collection", "words documents")


# ---------------------------------------------------------------- characters

# The pairs of base letter and mark for which ISO 8859-1 has one letter.
def composed_letters():
    pairs = {}
    for byte in range(0xC0, 0x100):
        parts = unicodedata.decomposition(chr(byte)).split()
        if len(parts) == 2 and int(parts[1], 16) in MARKS:
            pairs[int(parts[0], 16), int(parts[1], 16)] = byte
    return pairs


COMPOSED = composed_letters()


# The character of a byte in a file that is not UTF-8: that of ISO 8859-1, but
# 80 to 9F as Windows-1252 has them; those that it lacks stay control
# characters, which are separators.
def character_of_byte(byte):
    if 0x80 <= byte <= 0x9F:
        try:
            return bytes([byte]).decode("cp1252")
        except UnicodeDecodeError:
            return chr(byte)
    return chr(byte)


# The characters of a file or of a phrase: UTF-8 if it decodes as such.
def characters(data):
    try:
        text = data.decode("utf-8")
    except UnicodeDecodeError:
        return "".join(map(character_of_byte, data))
    return text[1:] if text.startswith("\ufeff") else text


# The byte of ISO 8859-1 for one character that stands for itself, None if it
# is dropped, FOREIGN if it is a letter, digit or mark that has no byte.
@functools.lru_cache(maxsize=None)
def byte_of_character(character):
    code = ord(character)
    if code in DROPPED:
        return None
    if code <= 0xFF:
        return code
    if code in REWRITTEN:
        return REWRITTEN[code]
    category = unicodedata.category(character)
    if category[0] in "LM" or category == "Nd":
        return FOREIGN
    return BLANK


# The bytes of a text, each with the number of the character where it begins.
def recode(text):
    at = 0
    while at < len(text):
        pair = (ord(text[at]), ord(text[at + 1])) if at + 1 < len(text) else None
        if pair in COMPOSED:
            yield at, COMPOSED[pair]
            at += 2
            continue
        byte = byte_of_character(text[at])
        if byte is not None:
            yield at, byte
        at += 1


# The letter table: what a byte becomes inside a word, 0 for a separator.
def letter(byte):
    if 0x30 <= byte <= 0x39 or 0x61 <= byte <= 0x7A:
        return byte
    if 0x41 <= byte <= 0x5A:
        return byte + 0x20
    if 0xC0 <= byte <= 0xDE and byte != 0xD7:
        return byte + 0x20
    if 0xDF <= byte <= 0xFF and byte != 0xF7:
        return byte
    return 0


LETTERS = [letter(byte) for byte in range(256)]


# The words of a text: the longest runs of letters, folded. A word with a
# foreign letter is None, since it can stand nowhere.
def split(text):
    words = []
    run = []
    for _, byte in recode(text):
        folded = FOREIGN if byte == FOREIGN else LETTERS[byte]
        if folded != 0:
            run.append(folded)
        elif run:
            words.append(run)
            run = []
    if run:
        words.append(run)
    return [None if FOREIGN in word else bytes(word).decode("iso-8859-1")
            for word in words]


# ----------------------------------------------------------------- the folder

# The paths, below the folder, of all regular files in it that are not hidden.
def paths_below(folder, below=b""):
    paths = []
    for name in os.listdir(os.path.join(folder, below)):
        if name.startswith(b"."):
            continue
        path = below + b"/" + name if below else name
        mode = os.lstat(os.path.join(folder, path)).st_mode
        if stat.S_ISDIR(mode):
            paths += paths_below(folder, path)
        elif stat.S_ISREG(mode):
            paths.append(path)
    return paths


# The names of documents with their paths, in the order of the bytes of the
# names: the path without a final ".txt", unless two would be equal.
def named_paths(paths):
    names = [path[:-4] if path.endswith(b".txt") else path for path in paths]
    if len(set(names)) < len(names):
        names = paths
    return sorted(zip(names, paths))


# Refuses a text with a foreign letter and says where the first one stands.
def refuse_foreign(path, text):
    for at, byte in recode(text):
        if byte == FOREIGN:
            line = text.count("\n", 0, at) + 1
            column = at - (text.rfind("\n", 0, at) + 1) + 1
            raise Refused("%s:%d:%d: U+%04X is not in ISO 8859-1"
                          % (os.fsdecode(path), line, column, ord(text[at])))


# Reads the whole folder; a file without a word is left out.
def read_collection(folder):
    folder = os.fsencode(folder)
    words = []
    documents = []
    for name, path in named_paths(paths_below(folder)):
        with open(os.path.join(folder, path), "rb") as file:
            text = characters(file.read())
        found = split(text)
        if None in found:
            refuse_foreign(path, text)
        if not found:
            print("left out, it has no word: %s" % os.fsdecode(path),
                  file=sys.stderr)
            continue
        start = len(words)
        words += found
        documents.append(Document(os.fsdecode(name), start, len(words)))
    return Collection(words, documents)


# ------------------------------------------------------------------ questions

# The words of a phrase, which is read like a text.
def phrase_words(phrase):
    words = split(characters(os.fsencode(phrase)))
    if not words:
        raise Refused("the phrase has no word")
    return words


# All places of one document at which the phrase stands; hits may overlap.
def hits_in_document(collection, document, phrase):
    words = collection.words
    return [place
            for place in range(document.start, document.end - len(phrase) + 1)
            if words[place:place + len(phrase)] == phrase]


# All hits of the collection in the order of their places, each with its
# document.
def hits(collection, phrase):
    return [(document, place)
            for document in collection.documents
            for place in hits_in_document(collection, document, phrase)]


# The context of a hit: up to so many words before it and after it, both in
# the order of the text, ended by the bounds of the document.
def context(collection, document, place, length, reach):
    words = collection.words
    left = words[max(document.start, place - reach):place]
    right = words[place + length:min(document.end, place + length + reach)]
    return left, right


# The word list: distinct words, most frequent first, equal ones by first
# appearance, each with its count.
def word_list(collection):
    counts = {}
    for word in collection.words:
        counts[word] = counts.get(word, 0) + 1
    return sorted(counts.items(), key=lambda item: -item[1])


# What a word is compared by in dictionary order: the letters without
# diacritics, then the bytes of ISO 8859-1.
def dictionary_key(word):
    return word.translate(PLAIN_LETTERS), word.encode("iso-8859-1")


# What a hit is sorted by: the words after it or before it, nearest first. A
# context that ends earlier comes first, as lists are compared.
def sorting_key(left, right, side):
    nearest_first = right if side == "right" else left[::-1]
    return [dictionary_key(word) for word in nearest_first]


# The counts of neighbours: for each offset, how often each word stands so far
# from the word asked about, both in one document.
def neighbour_counts(collection, word, offsets):
    columns = {offset: collections.Counter() for offset in offsets}
    for document, place in hits(collection, [word]):
        for offset in offsets:
            if document.start <= place + offset < document.end:
                columns[offset][collection.words[place + offset]] += 1
    return columns


# -------------------------------------------------------------------- answers

# Writes one line with tabs between its columns; a name of a file that is not
# UTF-8 goes out with its own bytes.
def write_row(*columns):
    line = "\t".join(str(column) for column in columns) + "\n"
    sys.stdout.buffer.write(line.encode("utf-8", "surrogateescape"))


# The number of hits, alone on a line.
def answer_count(collection, options):
    number = len(hits(collection, phrase_words(options.phrase)))
    write_row(number)
    return number > 0


# The hits with their contexts: a page of them in the order of places, or all
# of them sorted.
def answer_list(collection, options):
    if options.sort and options.next is not None:
        raise Refused("--next has no meaning together with --sort")
    phrase = phrase_words(options.phrase)
    rows = []
    for document, place in hits(collection, phrase):
        left, right = context(collection, document, place, len(phrase),
                              options.w)
        rows.append((document.name, place, left, right))
    if options.sort:
        rows.sort(key=lambda row: sorting_key(row[2], row[3], options.sort))
        lines = len(rows) if options.n is None else options.n
    else:
        rows = [row for row in rows if row[1] >= (options.next or 0)]
        lines = 20 if options.n is None else options.n
    write_row("document", "place", "left", "hit", "right")
    for name, place, left, right in rows[:lines]:
        write_row(name, place, " ".join(left), " ".join(phrase),
                  " ".join(right))
    return bool(rows)


# The beginning of the word list, or all of it.
def answer_words(collection, options):
    rows = word_list(collection)
    write_row("count", "word")
    for word, number in rows if options.all else rows[:options.n]:
        write_row(number, word)
    return bool(rows)


# How often the phrase stands in each document.
def answer_documents(collection, options):
    phrase = phrase_words(options.phrase)
    found = False
    write_row("count", "document")
    for document in collection.documents:
        number = len(hits_in_document(collection, document, phrase))
        found = found or number > 0
        if number > 0 or options.all:
            write_row(number, document.name)
    return found


# The words that stand most often around a word, by offset, and in the last
# row what is left of each column.
def answer_neighbours(collection, options):
    asked = phrase_words(options.word)
    if len(asked) != 1:
        raise Refused("neighbours are those of one word")
    offsets = [*range(-options.span, 0), *range(1, options.span + 1)]
    columns = neighbour_counts(collection, asked[0], offsets)
    around = [(word, [columns[offset][word] for offset in offsets])
              for word, _ in word_list(collection)]
    around = [(word, counts) for word, counts in around if sum(counts) > 0]
    around.sort(key=lambda row: -sum(row[1]))
    rows, rest = around[:options.n], around[options.n:]
    write_row("word", *("%+d" % offset for offset in offsets))
    for word, counts in rows:
        write_row(word, *counts)
    write_row("(others)", *(sum(counts[column] for _, counts in rest)
                            for column in range(len(offsets))))
    return asked[0] in collection.words


# The documents with their words, one blank between.
def answer_text(collection, options):
    write_row("document", "text")
    for document in collection.documents:
        write_row(document.name,
                  " ".join(collection.words[document.start:document.end]))
    return bool(collection.documents)


# ----------------------------------------------------------- the command line

# A number of an option, which is not negative.
def number(argument):
    if not (argument.isascii() and argument.isdigit()):
        raise argparse.ArgumentTypeError("not a number: %s" % argument)
    return int(argument)


# The command line.
def parser():
    top = argparse.ArgumentParser(
        description="What `concord ... --tsv` should print, by brute force.")
    top.add_argument("folder")
    commands = top.add_subparsers(dest="command", required=True)

    command = commands.add_parser("count")
    command.add_argument("phrase")
    command.set_defaults(answer=answer_count)

    command = commands.add_parser("list")
    command.add_argument("phrase")
    command.add_argument("-n", type=number, metavar="LINES")
    command.add_argument("-w", type=number, metavar="WORDS", default=5)
    command.add_argument("--next", type=number, metavar="PLACE")
    command.add_argument("--sort", choices=["left", "right"])
    command.set_defaults(answer=answer_list)

    command = commands.add_parser("words")
    amount = command.add_mutually_exclusive_group()
    amount.add_argument("-n", type=number, metavar="N", default=20)
    amount.add_argument("--all", action="store_true")
    command.set_defaults(answer=answer_words)

    command = commands.add_parser("documents")
    command.add_argument("phrase")
    command.add_argument("--all", action="store_true")
    command.set_defaults(answer=answer_documents)

    command = commands.add_parser("neighbours")
    command.add_argument("word")
    command.add_argument("--span", type=number, metavar="S", default=2)
    command.add_argument("-n", type=number, metavar="ROWS", default=10)
    command.set_defaults(answer=answer_neighbours)

    command = commands.add_parser("text")
    command.set_defaults(answer=answer_text)
    return top


# Answers one question; the result is the exit status.
def main():
    options = parser().parse_args()
    try:
        found = options.answer(read_collection(options.folder), options)
    except (Refused, OSError) as reason:
        print(reason, file=sys.stderr)
        return 2
    return 0 if found else 1


if __name__ == "__main__":
    sys.exit(main())
