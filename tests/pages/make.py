#!/usr/bin/env python3
"""Makes the cases of the program of the pages: for each NAME an input NAME.image and what must be printed, NAME.txt.

Written from documents 01 and 02 alone; see ../shape.py.
"""
import os
import sys

HERE = os.path.dirname(os.path.abspath(__file__))
sys.dont_write_bytecode = True
sys.path.insert(0, os.path.dirname(HERE))

from shape import LONGEST_INPUT, TIE, TIE_SALT, WORD, Shape, keys_ranked, many, number, priority, write_case, wrong_headers  # noqa: E402


def size(measure):
    """A Paris point is two half points; half points are 3*t/1,000, rounded to the nearest, a half going up."""
    if measure is None:
        return "-"
    half_points = (3 * sum(measure) + 500) // 1000
    return f"{half_points // 2}.{5 * (half_points % 2)}"


def key_line(shape, key):
    rank, count, leader = shape.rank[key], shape.count[key], shape.leader[key]
    line = f"{key:016X} {rank:4} {count:4} {leader:016X} {size(shape.measures.get(key)):>4}\n"
    assert len(line) == 49
    return line


def pages(shape):
    lines = [key_line(shape, key) for key in shape.keys]
    text = ""
    for page, first in enumerate(range(0, max(len(lines), 1), 50), 1):
        text += f"PAGE {page:04}\n" + "".join(lines[first:first + 50])
    return text


def case(name, image, text):
    write_case(HERE, name, image, text)


def printed(name, order, keys, measures=None, salt=0):
    shape = Shape(order, keys, measures, salt)
    case(name, shape.image(), pages(shape))
    return shape


def refused(name, image):
    case(name, image, "refused 6\n")


def chain(length):
    """Rising keys with falling priorities: each is the next whose priority is in the next lower band."""
    keys = []
    for band in reversed(range(length)):
        key = keys[-1] + 1 if keys else 1
        while priority(key) * length // WORD != band:
            key += 1
        keys.append(key)
    return keys


def some_measured(count):
    """So many keys, each third of them measured."""
    keys, measures = many(count)
    return keys, {key: measures[key] for key in keys[::3]}


def numbers_of_keys():
    """As many as fill a page, one fewer and one more; two pages; and as many as the program takes."""
    printed("forty_nine_keys", 3, many(49)[0])
    printed("fifty_keys", 3, *some_measured(50))
    printed("fifty_one_keys", 3, *some_measured(51))
    printed("hundred_keys", 4, *many(100))
    printed("hundred_and_one_keys", 4, *some_measured(101))
    printed("thousand_keys", 7, *many(1000))
    case("thousand_and_one_keys", Shape(7, *many(1001)).image(), "refused 10\n")


def sizes():
    """The least and the greatest, halves that go up, those just below a half, and none."""
    lasts = [(10000, -5000), (10000, -4834), (10000, -4833), (10000, -3501), (10000, -3500), (26499, 0), (26500, 0), (31500, -5000)]
    lasts += [(21500, 5000), (25500, 0), (25833, 0), (25834, 0), (40000, 4833), (40000, 4834), (40000, 5000)]
    measures = {key: last for key, last in enumerate(lasts, 1)}
    printed("sizes", 5, range(1, len(lasts) + 3), measures)


def salted_cases():
    """Images with the mark `LS`. The pages show no salt, but go by it."""
    printed("no_keys_under_a_salt", 3, [], salt=1)
    keys, measures = some_measured(60)
    assert pages(printed("under_a_salt", 3, keys, measures, 0x5EED)) != pages(Shape(3, keys, measures))
    printed("key_is_the_salt", 3, keys, measures, keys[7])
    printed("tie_under_a_salt", 3, TIE, salt=TIE_SALT)
    for name, image in wrong_headers(range(1, 21)).items():
        refused(name, image)


def main():
    printed("example_a", 3, [])
    printed("example_b", 3, [5])
    printed("example_d", 3, keys_ranked((1, 2, 3, 4), range(1, 40)))
    printed("example_e", 3, keys_ranked((2, 3, 4, 5, 6, 7, 1), range(1, 40)))
    printed("greatest_key", 255, [1, WORD - 1])
    printed("ranks_of_three_digits", 3, chain(210))
    printed("counts_of_three_digits", 255, chain(210))
    numbers_of_keys()
    sizes()
    salted_cases()
    image = printed("measured_key", 3, [5], {5: (26500, -120)}).image()
    refused("no_bytes", b"")
    refused("cut_short", image[:-1])
    refused("trailing_byte", image + b"\0")
    refused("bit_flipped", image[:40] + bytes([image[40] ^ 1]) + image[41:])
    refused("measure_too_long", image[:-6] + number(40001, 4) + number(5000, 2))
    refused("longest_input", bytes(LONGEST_INPUT))
    case("too_long", bytes(LONGEST_INPUT + 1), "too long\n")


if __name__ == "__main__":
    main()
