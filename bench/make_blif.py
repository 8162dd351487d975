#!/usr/bin/env python3
"""Writes texts of BLIF for the benchmark of reading.

    make_blif.py KIND BYTES > FILE

writes at most BYTES bytes of this kind. Each text fills the bytes but for less than one table, name or
line, except `one_more`, which has one byte too many. The kinds are:

    tables    tables of 3 inputs with one row each: a tree of them over 256 inputs, with one output. Each
              signal is driven once and each is used, so that other programs read it as a network too
    inputs    one line `.inputs` of names of one letter, which makes the most names per byte
    alike     one line `.inputs` of different names of one length that differ in 4 letters of 24
    colliding one line `.inputs` of different names that have the same fast hash, then a comment
    comments  one half short lines of comment, the other half one long comment
    joined    lines with nothing but the `\\` that joins each with the next
    wide      tables of 129 inputs with names of one letter and no rows
    one_more  one byte more than BYTES: refused for its length if BYTES is the limit, so its time is that
              of fetching the file

Names are hashed fast first, by a hash whose seed is fixed, and with a key of the whole text where they crowd, as those of `colliding`
do: it costs a second reading and the digest of the text. A reader that keeps the fast hash takes quadratic time there: whole/half is then
4 where it should be 2.
"""
import itertools
import string
import sys

LETTERS = string.ascii_letters + string.digits
INPUTS = 256
END = ".end\n"


# Names of FRONT, eight letters of any kind and BACK have the same hash, in all 64 bits, by std's `FoldHasher`, and by what multiplies it.
# It takes 16 bytes at a time as two numbers a and b, and goes from its state s to the halves of (a ^ s) * (b ^ M), joined by xor. From its
# start for 48 bytes the first 16 of FRONT lead to a state whose bytes are the 8 behind them, so the next product is 0 whatever b is.
FRONT, BACK = "collideaaaacddth" + "g6n753qu", 16 * "n"
COLLIDING = 2**16  # so many in a text of 64 MiB


def collisions(size):
    """So many different names with one hash as a text of this size has."""
    places = range(COLLIDING * size // 2**26)
    return (f"{FRONT}{place:08}{BACK}" for place in places)


def fill(head, line, size):
    """The head, then the line as often as it fits, then the end."""
    count = (size - len(head) - len(END)) // len(line)
    yield head
    yield line * count
    yield END


def words(length):
    """The words of so many letters, in order."""
    return map("".join, itertools.product(LETTERS, repeat=length))


def tables(size):
    # The table k of a tree has the tables 3k + 1, 3k + 2 and 3k + 3 as its inputs, where they are
    # there, and else inputs of the network. The leaves come first, so that signals come before their use.
    names = list(itertools.islice(words(4), size // len(".names aaaa aaaa aaaa aaaa\n111 1\n")))
    ports = ["x" + name for name in itertools.islice(words(3), INPUTS)]
    head = ".model tables\n.inputs " + " ".join(ports) + "\n.outputs " + names[0] + "\n"
    room = size - len(head) - len(END)
    count = room // len(".names aaaa aaaa aaaa aaaa\n111 1\n")

    def signal(place):
        return names[place] if place < count else ports[place % INPUTS]

    rows = ["111 1\n", "1-0 1\n", "01- 1\n", "000 1\n"]
    yield head
    for k in range(count - 1, -1, -1):
        yield f".names {signal(3 * k + 1)} {signal(3 * k + 2)} {signal(3 * k + 3)} {names[k]}\n{rows[k % 4]}"
    yield END


def inputs(size):
    head = ".model inputs\n.inputs"
    yield head
    yield " a" * ((size - len(head) - len("\n" + END)) // len(" a"))
    yield "\n" + END


def alike(size):
    head = ".model alike\n.inputs"
    stem = " " + 20 * "n"
    count = (size - len(head) - len("\n" + END)) // (len(stem) + 4)
    yield head
    for word in itertools.islice(words(4), count):
        yield stem + word
    yield "\n" + END


def colliding(size):
    head = ".model colliding\n.inputs"
    stem = "".join(" " + name for name in collisions(size))
    yield head
    yield stem
    yield "\n"
    yield "#" * (size - len(head) - len(stem) - len("\n\n" + END))
    yield "\n" + END


def comments(size):
    head = ".model comments\n"
    short = "#\n" * (size // 4)
    yield head
    yield short
    yield "#" * (size - len(head) - len(short) - len("\n" + END))
    yield "\n" + END


def joined(size):
    return fill(".model joined\n", "\\\n", size)


def wide(size):
    return fill(".model wide\n", ".names" + " a" * 130 + "\n", size)


def one_more(size):
    yield "#" * (size + 1)


KINDS = [tables, inputs, alike, colliding, comments, joined, wide, one_more]


def main():
    kinds = {kind.__name__: kind for kind in KINDS}
    if len(sys.argv) != 3 or sys.argv[1] not in kinds or not sys.argv[2].isdecimal():
        sys.exit("usage: make_blif.py " + "|".join(kinds) + " BYTES > FILE")
    for piece in kinds[sys.argv[1]](int(sys.argv[2])):
        sys.stdout.write(piece)


if __name__ == "__main__":
    main()
