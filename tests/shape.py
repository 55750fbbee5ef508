"""Orders and sets by documents 01 and 02, for the makers of the programs' cases.

By definition: leaders by really making the treap of each level. It shares nothing with the library.
"""
import itertools
import os

WORD = 2 ** 64

# The programs read so many bytes at most.
LONGEST_INPUT = 50023

E = [1442695040888963407]
while len(E) < 2048:
    E.append((6364136223846793005 * E[-1] + 1442695040888963407) % WORD)


def priority(key):
    value = 0
    for j in range(8):
        value ^= E[256 * j + (key >> (8 * j)) % 256]
    return value


def number(value, width):
    return value.to_bytes(width, "little")


def before(salt):
    """Sorts keys so that each comes before all that it outranks under the salt: of equal priorities the lesser key, whatever the salt."""
    return lambda key: (-priority(key ^ salt), key)


class Node:
    def __init__(self, key, left, right):
        self.key, self.left, self.right = key, left, right


def treap(keys, salt):
    if not keys:
        return None
    root = min(keys, key=before(salt))
    return Node(root, treap([k for k in keys if k < root], salt), treap([k for k in keys if k > root], salt))


def subtrees(node, path=()):
    """Each key with its node and its ancestors from the root down, itself the last."""
    if node is None:
        return {}
    found = {node.key: (node, path + (node.key,))}
    found.update(subtrees(node.left, path + (node.key,)))
    found.update(subtrees(node.right, path + (node.key,)))
    return found


def keys_of(node):
    return [] if node is None else keys_of(node.left) + [node.key] + keys_of(node.right)


class Shape:
    """An order, a salt and a set of keys; `measures` has a length and a correction for each key that is measured."""

    def __init__(self, order, keys, measures=None, salt=0):
        self.order, self.keys, self.measures, self.salt = order, sorted(keys), measures or {}, salt
        levels = [self.keys]
        while len(levels[-1]) > 1:
            top = treap(levels[-1], salt)
            nodes = subtrees(top)
            levels.append([k for k in levels[-1] if k == top.key or len(keys_of(nodes[k][0])) >= order])
        self.levels = [set(level) for level in levels]
        self.tree = treap(self.keys, salt)
        self.nodes = subtrees(self.tree)
        self.root = self.tree.key if self.tree else 0
        self.rank = {k: max(i for i, level in enumerate(self.levels) if k in level) for k in self.keys}
        self.count = {k: len(self.levels[self.rank[k]] & set(keys_of(self.nodes[k][0]))) for k in self.keys}
        self.leader = {k: self.leader_of(k) for k in self.keys}
        self.blocks = self.blocks_of()

    def leader_of(self, key):
        above = self.rank[key] + 1
        led = [k for k in self.nodes[key][1] if above < len(self.levels) and k in self.levels[above]]
        return led[-1] if led else 0

    def blocks_of(self):
        if not self.keys:
            return []
        top = self.rank[self.root]
        blocks = [(self.root, top, [k for k in self.keys if k == self.root or self.rank[k] == top - 1])]
        for level in range(top - 1, 0, -1):
            for leader in self.keys:
                held = [k for k in self.keys if self.rank[k] == level - 1 and self.leader[k] == leader]
                if held:
                    blocks.append((leader, level, held))
        return blocks

    def link(self, node):
        return node.key if node else 0

    def record(self, key):
        node = self.nodes[key][0]
        fields = number(key, 8) + number(self.link(node.left), 8) + number(self.link(node.right), 8)
        fields += number(self.rank[key], 2) + number(self.count[key], 2)
        if key not in self.measures:
            return b"LN" + fields
        length, correction = self.measures[key]
        return b"LM" + fields + number(length, 4) + number(correction + 5000, 2)

    def header(self):
        fields = number(self.order, 1) + number(len(self.keys), 2) + number(len(self.blocks), 2) + number(self.root, 8)
        return b"LS" + fields + number(self.salt, 8) if self.salt else b"LH" + fields

    def image(self):
        out = self.header()
        for leader, level, held in self.blocks:
            out += b"LB" + number(leader, 8) + number(level, 2) + number(len(held), 2)
            for key in held:
                out += self.record(key)
        return out


def keys_ranked(ranking, candidates):
    """Keys that rise, the i-th of which stands in outranking order where `ranking` has i."""
    n = len(ranking)
    for chosen in itertools.combinations(candidates, n):
        order = sorted(chosen, key=before(0))
        if [chosen.index(k) + 1 for k in order] == list(ranking):
            return chosen
    raise SystemExit("no such keys among the candidates")


def keys_at(depths):
    """Keys that rise and lie so deep in the treap, the root at 0: each is the next whose priority is in the band of its depth."""
    bands = max(depths) + 1
    keys, key = [], 0
    for depth in depths:
        key += 1
        while priority(key) * bands // WORD != bands - 1 - depth:
            key += 1
        keys.append(key)
    return keys


def many(number):
    """So many keys, and a measure for each, the ends of the rules among them."""
    keys = [(k * 11400714819323198485) % WORD for k in range(1, number + 1)]
    ends = {keys[0]: (10000, -5000), keys[1]: (40000, 5000)}
    measures = {key: (10000 + 29 * i % 30001, 7 * i % 10001 - 5000) for i, key in enumerate(keys)}
    return keys, {**measures, **ends}


# Two keys that have equal priorities under the salt of all ones. The lesser is the greater of the two without it.
TIE_SALT = WORD - 1
TIE = (0x055A050E17548921 ^ TIE_SALT, 0x08DFDFD4FFCCD72F ^ TIE_SALT)
assert TIE[0] > TIE[1] and priority(TIE[0] ^ TIE_SALT) == priority(TIE[1] ^ TIE_SALT)


def wrong_headers(keys):
    """Images of these keys but for the mark or the salt, each with its name."""
    plain, salted = Shape(3, keys).image(), Shape(3, keys, salt=77).image()
    fields, records = plain[2:15], plain[15:]
    return {
        "salt_of_zero": b"LS" + fields + number(0, 8) + records,
        "salt_left_out": b"LS" + fields + records,
        "salt_left_over": b"LH" + fields + number(77, 8) + records,
        "salt_cut_short": salted[:22],
        "another_salt": salted[:15] + number(78, 8) + salted[23:],
        "another_mark": b"LT" + salted[2:],
    }


def write_case(folder, name, image, text):
    """An input of a program and what it must print."""
    with open(os.path.join(folder, name + ".image"), "wb") as out:
        out.write(image)
    with open(os.path.join(folder, name + ".txt"), "w") as out:
        out.write(text)
