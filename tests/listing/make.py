#!/usr/bin/env python3
"""Makes the cases of the listing program: for each NAME an input NAME.image and what must be printed, NAME.txt.

Written from documents 01 and 02 alone; see ../shape.py.
"""
import os
import sys

HERE = os.path.dirname(os.path.abspath(__file__))
sys.dont_write_bytecode = True
sys.path.insert(0, os.path.dirname(HERE))

from shape import LONGEST_INPUT, TIE, TIE_SALT, WORD, Shape, keys_at, keys_ranked, many, number, write_case, wrong_headers  # noqa: E402


def fill(order, n, b):
    """Only the root block can reach 2*order - 1 keys; any other stops at 2*order - 2."""
    return 100 * n // ((2 * order - 1) + (b - 1) * (2 * order - 2)) if n else 0


def listing(shape):
    n, b = len(shape.keys), len(shape.blocks)
    lines = [f"order {shape.order} keys {n} blocks {b} fill {fill(shape.order, n, b)} root {shape.root:016X}"]
    for leader, level, held in shape.blocks:
        lines.append(f"block {leader:016X} level {level} keys {len(held)}")
        for key in held:
            lines.append(f"key {key:016X} rank {shape.rank[key]} count {shape.count[key]}")
    return "".join(line + "\n" for line in lines)


def case(name, image, text):
    write_case(HERE, name, image, text)


def listed(name, order, keys, measures=None, salt=0):
    shape = Shape(order, keys, measures, salt)
    case(name, shape.image(), listing(shape))
    return shape


def refused(name, image):
    case(name, image, "refused 6\n")


def measured_cases():
    """Images with records under `LM`. A lone key's measure is the last six bytes of its image."""
    listed("measured_keys", 3, [3, 5, 9, 12], {5: (10000, -5000), 9: (26500, 0), 12: (40000, 5000)})
    lone = listed("measured_key", 3, [5], {5: (26500, -120)}).image()
    fields, measure = lone[:-6], lone[-6:]
    assert fields[29:31] == b"LM" and measure == number(26500, 4) + number(4880, 2)
    refused("measure_of_zero", fields + number(0, 4) + number(0, 2))
    refused("measure_too_short", fields + number(9999, 4) + number(5000, 2))
    refused("measure_too_long", fields + number(40001, 4) + number(5000, 2))
    refused("correction_too_great", fields + number(26500, 4) + number(10001, 2))
    refused("correction_of_no_measure", fields + number(0, 4) + number(5000, 2))
    refused("measure_left_out", fields)
    refused("measure_left_over", lone[:29] + b"LN" + lone[31:])


def fills_of_several_blocks():
    """Three full blocks: on each side of the root a key over one that has two keys on each of its own sides; the same without the
    key that lies deepest and is the least; and a comb, most of whose blocks hold one tooth."""
    side = [4, 3, 2, 4, 3, 1]
    keys = keys_at(side + [0] + side)
    full = listed("full_blocks", 3, keys)
    assert [len(held) for leader, level, held in full.blocks] == [5, 4, 4]
    assert listing(full).startswith("order 3 keys 13 blocks 3 fill 100 ")
    listed("one_key_fewer_than_full", 3, keys[1:])
    comb = listed("comb", 20, keys_at([depth for tooth in range(19) for depth in (tooth + 1, tooth)]))
    assert listing(comb).startswith("order 20 keys 38 blocks 11 fill 9 ")


def salted_cases():
    """Images with the mark `LS`. The listing shows no salt, but goes by it."""
    listed("no_keys_under_a_salt", 3, [], salt=1)
    listed("lone_key_is_the_salt", 3, [5], salt=5)
    keys = range(1, 21)
    assert listing(listed("under_a_salt", 3, keys, {5: (26500, -120)}, 0x5EED)) != listing(Shape(3, keys))
    listed("under_the_highest_bit", 4, keys, salt=WORD // 2)
    tie = listed("tie_under_a_salt", 3, TIE, salt=TIE_SALT)
    assert tie.root == min(TIE)
    listed("thousand_keys_under_a_salt", 7, *many(1000), salt=many(1000)[0][500])
    for name, image in wrong_headers(keys).items():
        refused(name, image)


def main():
    listed("example_a", 3, [])
    listed("example_b", 3, [5])
    chain = listed("example_d", 3, keys_ranked((1, 2, 3, 4), range(1, 40)))
    listed("example_e", 3, keys_ranked((2, 3, 4, 5, 6, 7, 1), range(1, 40)))
    six = listed("example_g", 3, keys_ranked((3, 2, 4, 1, 5, 6), range(1, 40)))
    listed("greatest_key", 255, [1, WORD - 1])
    listed("thousand_keys", 7, *many(1000))
    case("thousand_and_one_keys", Shape(7, *many(1001)).image(), "refused 10\n")
    fills_of_several_blocks()
    measured_cases()
    salted_cases()
    image = six.image()
    refused("no_bytes", b"")
    refused("cut_short", image[:-1])
    refused("trailing_byte", image + b"\0")
    refused("count_changed", image[:3] + bytes([image[3] + 1]) + image[4:])
    refused("bit_flipped", image[:40] + bytes([image[40] ^ 1]) + image[41:])
    first, second = six.blocks[1], six.blocks[2]
    parts = [15]
    for block in six.blocks:
        parts.append(parts[-1] + 14 + 30 * len(block[2]))
    assert first[1] == second[1]
    exchanged = image[:parts[1]] + image[parts[2]:parts[3]] + image[parts[1]:parts[2]]
    refused("blocks_exchanged", exchanged)
    refused("order_two", chain.image()[:2] + b"\2" + chain.image()[3:])
    refused("key_of_zero", b"LH\3\1\0\1\0" + bytes(8) + b"LB" + bytes(8) + b"\0\0\1\0LN" + bytes(24) + b"\0\0\1\0")
    refused("longest_input", bytes(LONGEST_INPUT))
    case("too_long", bytes(LONGEST_INPUT + 1), "too long\n")


if __name__ == "__main__":
    main()
