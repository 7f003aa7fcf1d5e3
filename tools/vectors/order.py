#!/usr/bin/env python3
"""Writes crates/replay_order/stdin and stdout: the vectors of the crate `order` and of the inverse in `toc`, and what is due for each.

Run it at the project's root. What is due comes from the rules ("Refusal numbers", "Sections"), by Python's own means: an order is
`sorted(order) == list(range(count))`, its inverse is written section by section. Sources are named at each vector.
"""
import pathlib
import struct

MOST = 65536
ROOM = 65540       # words in the program's two arrays
UNTOUCHED = 7      # what the lent table holds before


def judged(order, count):
    """10 over 65,536 sections, else 13 unless the order is a permutation of 0 to count - 1."""
    if count > MOST:
        return 10
    return 0 if sorted(order) == list(range(count)) else 13


def inverse(order):
    """inverse[order[section]] = section"""
    back = {sent: section for section, sent in enumerate(order)}
    return [back[sent] for sent in range(len(order))]


def looked_up(table, count, number):
    """The refusal, and the word: the table is judged whole, then 14 for a number that is not below count."""
    refusal = judged(table, count)
    if refusal == 0 and number >= count:
        refusal = 14
    return refusal, (table[number] if refusal == 0 else 0)


def shown(table):
    mixed = 0
    for word in table:
        mixed = mixed % 1000003 * 31 + word
    return [mixed] + table[:8]


def line(made, length, count, room, number, words):
    words = words + [0] * (10 - len(words))
    if made == 0:
        order = words + [0] * (ROOM - 10)
    else:
        order = [length - 1 - i for i in range(min(length, ROOM))] + [0] * (ROOM - min(length, ROOM))
        if words[0] < ROOM:
            order[words[0]] = words[1]
    order = order[:length]
    table = [UNTOUCHED] * min(room, ROOM)
    refusal = judged(order, count)
    inverted = 10 if count > MOST else 3 if len(table) < count else refusal
    if inverted == 0:
        table[:count] = inverse(order)
    out = [refusal, 0, inverted, *looked_up(order, count, number), *looked_up(table, count, number)]
    record = struct.pack('<15I', made, length, count, room, number, *words)
    return record, '\t'.join(str(n) for n in out + shown(table)) + '\n'


NONE = 65540       # no word of the reversed order is changed
FAR = 4294967295


def vectors():
    p5, p6 = [2, 0, 1, 3, 4], [0, 0, 1, 2, 3]
    # P5: the order and its inverse 1, 2, 0, 3, 4, each number looked up in both
    for number in range(6):
        yield 0, 5, 5, 5, number, p5
    # the inverse's own inverse is the order again
    yield 0, 5, 5, 5, 0, [1, 2, 0, 3, 4]
    # P6: 13
    yield 0, 5, 5, 5, 0, p6
    # no sections, one section, and one that isn't 0
    yield 0, 0, 0, 0, 0, []
    yield 0, 1, 1, 1, 0, [0]
    yield 0, 1, 1, 1, 1, [0]
    yield 0, 1, 1, 1, 0, [1]
    yield 0, 1, 0, 1, 0, [0]
    # too long, too short: another length than count is 13
    yield 0, 6, 5, 6, 0, p5 + [5]
    yield 0, 4, 5, 5, 0, p5
    # a number too large, at both ends; the largest there is
    yield 0, 5, 5, 5, 0, [5, 0, 1, 3, 4]
    yield 0, 5, 5, 5, 0, [2, 0, 1, 3, 5]
    yield 0, 5, 5, 5, 0, [2, 0, 1, 3, FAR]
    # a repeat at both ends, and of the two ends
    yield 0, 5, 5, 5, 0, [2, 2, 1, 3, 4]
    yield 0, 5, 5, 5, 0, [2, 0, 1, 4, 4]
    yield 0, 5, 5, 5, 0, [4, 0, 1, 3, 4]
    # a table one word short is 3, before 13; a longer table keeps its words behind, and is itself no inverse of count entries
    yield 0, 5, 5, 4, 0, p5
    yield 0, 5, 5, 4, 0, p6
    yield 0, 5, 5, 7, 0, p5
    # a number that isn't below the count is 14, after 13
    yield 0, 5, 5, 5, FAR, p5
    yield 0, 5, 5, 5, FAR, p6
    # the largest count, reversed; with a repeat at each end and a number too large
    yield 1, MOST, MOST, MOST, 0, [NONE, 0]
    yield 1, MOST, MOST, MOST, MOST - 1, [NONE, 0]
    yield 1, MOST, MOST, MOST, MOST, [NONE, 0]
    yield 1, MOST, MOST, MOST, 0, [0, 0]
    yield 1, MOST, MOST, MOST, 0, [MOST - 1, MOST - 1]
    yield 1, MOST, MOST, MOST, 0, [0, MOST]
    yield 1, MOST, MOST, MOST - 1, 0, [NONE, 0]
    # one section more is 10, whatever the tables
    yield 1, MOST + 1, MOST + 1, MOST + 1, 0, [NONE, 0]
    yield 0, 5, MOST + 1, 5, 0, p5
    yield 0, 5, FAR, 5, 0, p6


def main():
    lines = [line(*vector) for vector in vectors()]
    place = pathlib.Path('crates/replay_order')
    (place / 'stdin').write_bytes(b''.join(record for record, _ in lines))
    (place / 'stdout').write_text(''.join(due for _, due in lines))


main()
