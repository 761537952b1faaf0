#!/usr/bin/env python3
"""Makes the stored test images and what `catalog` must print for each, from the words of the requirements alone.

    tools/make_images.py            writes the images, the list of their names and the expected output

It shares nothing with the definitions or the code: it lays blocks out by hand, so that a mistake there does not repeat here.
"""
import os

HERE = os.path.dirname(os.path.dirname(os.path.abspath(__file__)))
BLOCK = 512


class Volume:
    """A volume that is built block by block. `way` of a directory: its key, its chain, its entry's place, its path."""

    def __init__(self, blocks, name):
        self.n = blocks
        self.b = bytearray(blocks * BLOCK)
        self.lines = []
        maps = (blocks + 4095) // 4096
        self.next_free = 6 + maps
        for x in range(6 + maps, blocks):
            self.set_free(x, 1)
        for block, before, after in ((2, 0, 3), (3, 2, 4), (4, 3, 5), (5, 4, 0)):
            self.word(block * BLOCK, before)
            self.word(block * BLOCK + 2, after)
        h = 2 * BLOCK
        self.b[h + 4] = 0xF0 + len(name)
        self.b[h + 5:h + 5 + len(name)] = name.encode()
        self.b[h + 0x22] = 0xC3
        self.b[h + 0x23] = 39
        self.b[h + 0x24] = 13
        self.word(h + 0x27, 6)
        self.word(h + 0x29, blocks)
        self.root = {"key": 2, "chain": [2, 3, 4, 5], "place": None, "path": "/" + name, "slot": 1, "lines": self.lines}
        self.name = name

    def word(self, at, x):
        self.b[at] = x % 256
        self.b[at + 1] = x // 256

    def get_word(self, at):
        return self.b[at] + 256 * self.b[at + 1]

    def set_free(self, block, bit):
        at = 6 * BLOCK + block // 8
        weight = 1 << (7 - block % 8)
        self.b[at] = self.b[at] | weight if bit else self.b[at] & ~weight

    def free(self):
        return sum(bin(x).count("1") for x in self.b[6 * BLOCK:6 * BLOCK + 512 * ((self.n + 4095) // 4096)])

    def take(self):
        block = self.next_free
        self.next_free += 1
        self.set_free(block, 0)
        return block

    def place(self, directory):
        """The next slot of a directory: its block and its number from 1 on. A subdirectory gains a block when it is full."""
        directory["slot"] += 1
        index, slot = divmod(directory["slot"] - 1, 13)
        if index == len(directory["chain"]):
            block = self.take()
            last = directory["chain"][-1]
            self.word(last * BLOCK + 2, block)
            self.word(block * BLOCK, last)
            directory["chain"].append(block)
            at = directory["place"]
            used = len(directory["chain"])
            self.word(at + 0x13, used)
            self.word(at + 0x15, used * BLOCK % 65536)
            self.b[at + 0x17] = used * BLOCK // 65536
        return directory["chain"][index], slot + 1

    def entry(self, directory, kind, name, ftype, key, used, eof):
        block, slot = self.place(directory)
        at = block * BLOCK + 4 + 39 * (slot - 1)
        self.b[at] = 16 * kind + len(name)
        self.b[at + 1:at + 1 + len(name)] = name.encode()
        self.b[at + 0x10] = ftype
        self.word(at + 0x11, key)
        self.word(at + 0x13, used)
        self.word(at + 0x15, eof % 65536)
        self.b[at + 0x17] = eof // 65536
        self.b[at + 0x1E] = 0xE3
        self.word(at + 0x25, directory["key"])
        count = directory["key"] * BLOCK + 0x25
        self.word(count, self.get_word(count) + 1)
        line = {"at": at, "kind": kind, "type": ftype, "path": directory["path"] + "/" + name, "below": []}
        directory["lines"].append(line)
        return at, block, slot, line

    def directory(self, parent, name):
        key = self.take()
        at, block, slot, line = self.entry(parent, 0xD, name, 0x0F, key, 1, 512)
        h = key * BLOCK
        self.b[h + 4] = 0xE0 + len(name)
        self.b[h + 5:h + 5 + len(name)] = name.encode()
        self.b[h + 0x14] = 0x75
        self.b[h + 0x22] = 0xE3
        self.b[h + 0x23] = 39
        self.b[h + 0x24] = 13
        self.word(h + 0x27, block)
        self.b[h + 0x29] = slot
        self.b[h + 0x2A] = 39
        return {"key": key, "chain": [key], "place": at, "path": parent["path"] + "/" + name, "slot": 1, "lines": line["below"]}

    def seedling(self, parent, name, data=b"", ftype=4):
        key = self.take()
        self.b[key * BLOCK:key * BLOCK + len(data)] = data
        return self.entry(parent, 1, name, ftype, key, 1, len(data))[0]

    def index(self, pointers):
        block = self.take()
        for i, p in pointers.items():
            self.b[block * BLOCK + i] = p % 256
            self.b[block * BLOCK + 256 + i] = p // 256
        return block

    def sapling(self, parent, name, eof, held):
        """`held`: the file blocks that are no holes."""
        data = {i: self.take() for i in held}
        key = self.index(data)
        return self.entry(parent, 2, name, 4, key, 1 + len(data), eof)[0]

    def tree(self, parent, name, eof, held, empty=()):
        """`empty`: indexes that hold nothing but holes."""
        indexes, used = {}, 1
        for q in sorted({i // 256 for i in held} | set(empty)):
            data = {i % 256: self.take() for i in held if i // 256 == q}
            indexes[q] = self.index(data)
            used += 1 + len(data)
        key = self.index(indexes)
        return self.entry(parent, 3, name, 4, key, used, eof)[0]

    def listing(self):
        out = ["%s %d %d" % (self.name, self.n, self.free())]

        def show(lines):
            for line in lines:
                at = line["at"]
                eof = self.get_word(at + 0x15) + 65536 * self.b[at + 0x17]
                out.append("%X %02X %d %d %s" % (line["kind"], line["type"], self.get_word(at + 0x13), eof, line["path"]))
                show(line["below"])

        show(self.lines)
        return "".join(line + "\n" for line in out)


def case2():
    v = Volume(16, "SITE7")
    v.seedling(v.root, "LOG", b"ABC")
    v.seedling(v.directory(v.root, "DAYS"), "D1")
    return v


def nested(levels):
    v = Volume(64, "DEEP")
    at = v.root
    for i in range(levels):
        at = v.directory(at, "L%d" % (i + 1))
    return v


def good():
    yield "case2", case2()
    yield "empty", Volume(16, "EMPTY")
    yield "nested31", nested(31)
    v = Volume(64, "WIDE")
    d = v.directory(v.root, "DAYS")
    ats = [v.seedling(d, "D%d" % (i + 1), b"x" * i) for i in range(20)]
    for i in (0, 7, 12, 18):
        drop_entry(v, d, ats[i])
    yield "holes_between_entries", v
    v = Volume(64, "TALL")
    v.tree(v.root, "T", 300 * 512 + 7, [0, 255, 256, 300], empty=())
    v.tree(v.root, "HOLLOW", 600 * 512, [3], empty=(1, 2))
    v.sapling(v.root, "S", 3000, [1, 5])
    yield "tree_with_holes", v
    v = Volume(128, "FULLSIZE")
    v.seedling(v.root, "ONE.FILE", b"1")
    yield "exactly_65536_bytes", v
    v = case2()
    junk(v)
    yield "unnamed_bytes_are_anything", v


def drop_entry(v, directory, at):
    """What destroy does, by hand."""
    v.set_free(v.get_word(at + 0x11), 1)
    v.b[at] = 0
    count = directory["key"] * BLOCK + 0x25
    v.word(count, v.get_word(count) - 1)
    directory["lines"][:] = [line for line in directory["lines"] if line["at"] != at]


def junk(v):
    """Every byte that no sentence of "A sound volume" names."""
    for at in list(range(0, 1024)) + list(range(10 * BLOCK, 16 * BLOCK)):
        v.b[at] = (7 * at + 3) % 256
    for block in (2, 3, 4, 5, 8):
        v.b[block * BLOCK + 511] = 0xA5
    for h in (2 * BLOCK, 8 * BLOCK):
        v.b[h + 0x0C:h + 0x23] = bytes(0x51 for _ in range(0x0C, 0x23))
    v.b[8 * BLOCK + 0x0C:8 * BLOCK + 0x14] = bytes(8)
    for at in (1067, 1106, 4139):
        v.b[at + 9:at + 0x10] = bytes(0x42 for _ in range(7))
        v.b[at + 0x18:at + 0x25] = bytes(0xFF for _ in range(13))
    for at in range(7 * BLOCK + 3, 8 * BLOCK):
        v.b[at] = 0x99
    for at in range(9 * BLOCK, 10 * BLOCK):
        v.b[at] = 0x77
    for slot in range(4, 14):
        at = 1028 + 39 * (slot - 1)
        v.b[at:at + 39] = bytes([0x0F] + [0xEE] * 38)


def damaged():
    """One sentence broken alone: name, and a function that breaks it in the volume of case 2 (or another volume)."""
    LOG, DAYS, D1, HEAD = 1067, 1106, 4139, 8 * BLOCK

    def case(name, change, volume=case2):
        v = volume()
        change(v)
        return name, v

    def put(at, x):
        def change(v):
            v.b[at] = x
        return change

    def word(at, x):
        def change(v):
            v.word(at, x)
        return change

    def both(*changes):
        def change(v):
            for one in changes:
                one(v)
        return change

    def free(block, bit):
        return lambda v: v.set_free(block, bit)

    yield case("volume_name_small_letter", put(1029, ord("s")))
    yield case("volume_name_empty", put(1028, 0xF0))
    yield case("volume_name_improper", put(1029, ord("7")))
    yield case("volume_chain_other_order", both(word(1026, 4), word(2048, 2), word(2050, 3), word(1536, 4), word(1538, 5), word(2560, 3)))
    yield case("volume_chain_back_link", word(1536, 5))
    yield case("volume_chain_goes_on", word(2562, 10))
    yield case("map_block_7", word(1024 + 0x27, 7))
    yield case("volume_count_wrong", word(1024 + 0x25, 3))
    yield case("directory_chain_back_link", word(HEAD, 3))
    yield case("directory_chain_does_not_end", word(HEAD + 2, 10))
    yield case("directory_count_wrong", word(HEAD + 0x25, 0))
    yield case("kind_4", put(LOG, 0x43))
    yield case("kind_E_as_entry", put(DAYS, 0xE4))
    yield case("entry_name_small_letter", put(LOG + 1, ord("l")))
    yield case("entry_name_length_0", put(LOG, 0x10))
    yield case("entry_name_digit_first", put(LOG + 1, ord("1")))
    yield case("entry_name_slash_in_it", put(LOG + 2, ord("/")))

    def twins():
        v = Volume(16, "SITE7")
        v.seedling(v.root, "LOG")
        v.seedling(v.root, "DAYS")
        v.seedling(v.root, "LOG")
        return v

    yield case("two_names_alike", lambda v: None, twins)
    yield case("directory_key_at_25_wrong", word(D1 + 0x25, 2))
    yield case("header_name_differs", put(HEAD + 5, ord("B")))
    yield case("header_name_shorter", put(HEAD + 4, 0xE3))
    yield case("header_parent_block_wrong", word(HEAD + 0x27, 3))
    yield case("header_parent_slot_2_for_3", put(HEAD + 0x29, 2))
    yield case("header_kind_F", put(HEAD + 4, 0xF4))
    yield case("header_23_not_39", put(HEAD + 0x23, 38))
    yield case("header_24_not_13", put(HEAD + 0x24, 12))
    yield case("header_2A_not_39", put(HEAD + 0x2A, 0))
    yield case("directory_type_not_0F", put(DAYS + 0x10, 0x04))
    yield case("directory_used_wrong", word(DAYS + 0x13, 2))
    yield case("directory_used_0", word(DAYS + 0x13, 0))
    yield case("directory_eof_wrong", word(DAYS + 0x15, 511))
    yield case("data_file_type_0F", put(LOG + 0x10, 0x0F))
    yield case("32_levels", lambda v: None, lambda: nested(32))
    yield case("kind_does_not_fit_eof", word(LOG + 0x15, 513))

    def tall():
        v = Volume(64, "TALL")
        v.tree(v.root, "T", 300 * 512, [0, 256])
        v.sapling(v.root, "S", 1024, [0, 1])
        return v

    def sapling_past(v):
        block = v.take()
        key = v.get_word(1106 + 0x11)
        v.b[key * BLOCK + 2] = block
        v.word(1106 + 0x13, 4)

    def tree_index_past(v):
        block = v.take()
        key = v.get_word(1067 + 0x11)
        v.b[key * BLOCK + 2] = block
        v.word(1067 + 0x13, v.get_word(1067 + 0x13) + 1)

    def master_200(v):
        block = v.take()
        key = v.get_word(1067 + 0x11)
        v.b[key * BLOCK + 200] = block
        v.word(1067 + 0x13, v.get_word(1067 + 0x13) + 1)

    yield case("pointer_past_eof", sapling_past, tall)
    yield case("index_with_nothing_before_eof", tree_index_past, tall)
    yield case("master_pointer_200", master_200, tall)
    yield case("blocks_used_wrong", word(LOG + 0x13, 2))
    yield case("pointer_off_the_volume", word(LOG + 0x11, 16))
    yield case("pointer_far_off_the_volume", word(LOG + 0x11, 65535))
    yield case("key_0", word(LOG + 0x11, 0))
    yield case("block_with_two_owners", both(word(LOG + 0x11, 9), free(7, 1)))
    yield case("file_owns_a_map_block", both(word(LOG + 0x11, 6), free(7, 1)))
    yield case("file_owns_a_directory_block", both(word(LOG + 0x11, 4), free(7, 1)))
    yield case("map_calls_an_owned_block_free", free(9, 1))
    yield case("map_calls_a_lost_block_used", free(12, 0))
    yield case("map_bit_past_the_volume", put(3074, 0x80))
    yield case("map_last_bit_of_its_block", put(3583, 0x01))
    yield case("directory_in_itself", both(word(D1 + 0x11, 8), put(D1, 0xD2), put(D1 + 0x10, 0x0F), word(D1 + 0x15, 512), free(9, 1)))


def not_prodos():
    v = case2()
    yield "length_0", b""
    yield "length_no_multiple", bytes(v.b[:-1])
    yield "length_15_blocks", bytes(v.b[:15 * BLOCK])
    yield "length_one_more_block", bytes(v.b) + bytes(BLOCK)
    for name, at, x in (("previous_not_0", 1024, 1), ("kind_not_F", 1028, 0xE5), ("23_not_39", 1024 + 0x23, 40),
                        ("24_not_13", 1024 + 0x24, 14), ("total_not_n", 1024 + 0x29, 17)):
        b = bytearray(v.b)
        b[at] = x
        yield name, bytes(b)


def main():
    folder = os.path.join(HERE, "crates", "catalog")
    data = os.path.join(folder, "data")
    os.makedirs(data, exist_ok=True)
    for old in os.listdir(data):
        os.remove(os.path.join(data, old))
    names, out = [], []

    def add(name, image, text):
        names.append(name)
        out.append(name + "\n" + text)
        with open(os.path.join(data, name), "wb") as f:
            f.write(image)

    for name, v in good():
        add(name, v.b, v.listing())
    add("65537_bytes", bytes(65537), "TOO LARGE\n")
    for name, v in damaged():
        add("5a_" + name, v.b, "REFUSED 5A\n")
    for name, image in not_prodos():
        add("52_" + name, image, "REFUSED 52\n")
    with open(os.path.join(folder, "args"), "w") as f:
        f.write("".join(name + "\n" for name in names))
    with open(os.path.join(folder, "stdout"), "w") as f:
        f.write("".join(out))
    sample = os.path.join(HERE, "samples")
    os.makedirs(sample, exist_ok=True)
    v = case2()
    with open(os.path.join(sample, "site7.po"), "wb") as f:
        f.write(v.b)
    with open(os.path.join(HERE, "crates", "catalog", "stdin"), "wb") as f:
        f.write(v.b)
    with open(os.path.join(HERE, "crates", "catalog", "stdout"), "w") as f:
        f.write(v.listing())
    print(len(names), "images,", sum(os.path.getsize(os.path.join(data, n)) for n in names), "bytes")


main()
