"""Records of sheets as bytes, for the scripts beside this one."""
import functools
import struct


def u16(v):
    return struct.pack("<H", v)


def items(vs):
    """A list field: the count and the references."""
    return bytes([len(vs)]) + b"".join(u16(v) for v in vs)


def sheet(sorts, terms, questions=()):
    """A sheet of these records."""
    head = struct.pack("<3H", len(sorts), len(terms), len(questions))
    return head + b"".join(sorts) + b"".join(terms) + b"".join(questions)


# sorts
VAR = lambda n: bytes([3, 2]) + u16(n)
LEAF = lambda k: bytes([1, k])
FUN = lambda *l: bytes([17, 0]) + items(l)
PAR = lambda names, b: bytes([81, 12]) + items([b]) + items(names)
SET = lambda r: bytes([17, 14]) + items([r])
ARRAY = lambda a, b: bytes([17, 8]) + items([a, b])
TUPLE = lambda *l: bytes([17, 15]) + items(l)
BV = lambda w: bytes([5, 9]) + struct.pack("<I", w)
# A sort record with this tree size written.
SIZED = lambda record, size: bytes([record[0] | 128]) + record[1:] + u16(size)

# terms
INTEGER = lambda v: bytes([5, 0]) + struct.pack("<I", v)
BITS = lambda w: bytes([5, 4]) + struct.pack("<I", w)
TVAR = lambda n, s: bytes([11, 5]) + u16(n) + u16(s)
APP = lambda *l: bytes([17, 6]) + items(l)
OP = lambda k, *l: bytes([21, 7]) + struct.pack("<I", k) + items(l)
BINDER = lambda k, pairs, b: bytes([53, 8]) + struct.pack("<I", k) + items([b]) + bytes([len(pairs)]) + b"".join(u16(n) + u16(s) for n, s in pairs)

# questions
COMPATIBLE = lambda a, b: bytes([17, 0]) + items([a, b])
MATCH = lambda p, t, r, names: bytes([81, 1]) + items([p, t, r]) + items(names)
CONTINUE = lambda p, t, r, given, names: bytes([113, 3]) + items([p, t, r]) + bytes([len(given)]) + b"".join(u16(n) + u16(s) for n, s in given) + items(names)
APPLY = lambda s, names, images: bytes([81, 2]) + items([s] + images) + items(names)


# The store's hash (crates/store/src/hashes.rt), over the record without its size: two halves of 32 bits, a step for each two bytes. Its products are undone by UNLOW and UNHIGH.
MASK = 0xFFFFFFFF
LOW, HIGH = 1640531527, 1540483477
UNLOW, UNHIGH = pow(LOW, -1, 1 << 32), pow(HIGH, -1, 1 << 32)


def turned(v):
    """A half turned by 17 bits."""
    return v >> 15 | (v & 0x7FFF) << 17


def unturned(v):
    """What gives this half when it is turned."""
    return v >> 17 | (v & 0x1FFFF) << 15


def hashed(low, high, words):
    """The halves of the hash after these words."""
    for word in words:
        product = (low + word) * LOW & MASK
        low, high = turned(product), turned((high + product) * HIGH & MASK)
    return low, high


def beginnings(low, high):
    """Two names each of 2^21 beginnings, by what `equal_hashes` asks of the halves behind them."""
    found = {}
    for one in range(1000, 1032):
        low1, high1 = hashed(low, high, [one])
        for two in range(65536):
            product = (low1 + two) * LOW & MASK
            low2, high2 = turned(product), turned((high1 + product) * HIGH & MASK)
            found[(high2 & 0x7FFF) << 16 | (high2 * UNLOW + low2 & MASK) >> 16] = (one, two)
    return found


@functools.cache
def equal_hashes(n):
    """The names of n Pars over the sort 0, six each, whose records all have the hash 0; some 20 seconds for 2,000.

    The last byte, which the hash begins with, is 1 in all. Names 5 and 6 are undone from the end, 1 and 2 done from the beginning. Then
    the high halves give the product of name 3, and that gives names 3 and 4: 32 bits each, of which the upper 16 must be zeros. That
    is so for one beginning and one end in 2^32. It says 15 bits of the high half behind name 2 and, but for a carry each, 16 of a sum.
    """
    start = hashed(1, 0, [81 + 12 * 256, 1, 6 * 256])
    first = beginnings(*start)
    found = []
    for end in range(65536 * 256):
        five, six = end % 65536, 256 + end // 65536
        product5 = unturned(-six & MASK)
        product4 = unturned(product5 * UNLOW - five & MASK)
        sum3 = unturned(unturned(-product5 & MASK) * UNHIGH - product4 & MASK) * UNHIGH
        whole3, whole4 = sum3 * UNLOW & MASK, product4 * UNLOW & MASK
        for low15 in {whole4 >> 17, (whole4 - 0xFFFF & MASK) >> 17}:
            for high16 in (whole3 >> 16, (whole3 - 0xFFFF & MASK) >> 16):
                pair = first.get((sum3 - low15 & 0x7FFF) << 16 | high16)
                if pair:
                    low, high = hashed(*start, pair)
                    three = (sum3 - high) * UNLOW - low & MASK
                    four = whole4 - turned(sum3 - high & MASK) & MASK
                    if max(three, four) < 65536 and len({*pair, three, four, five, six}) == 6:
                        found.append([*pair, three, four, five, six])
        if n <= len(found):
            return found[:n]
