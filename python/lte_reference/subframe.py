#!/usr/bin/env python3
"""A second transmitter of subframe 5 with SystemInformationBlockType1, from which the rows of the tests of the
shared channel and of the system information come (`crates/slot_tests`). Nothing is shared with the repository's
code: TS 36.211 sections 6.3 to 6.10 and 7.2, TS 36.212 sections 5.1 and 5.3.

    python3 -m lte_reference.subframe

A row is a symbol of 72 subcarriers: a digit is 2 where the real part of a point is negative, and 1 more where the
imaginary part is; a dot is an empty place.
"""

# the factors of the turbo code's interleaver by K
INTERLEAVER = {56: (19, 42), 144: (17, 108), 248: (33, 62)}
# 0 to 31, each with its five bits reversed
REVERSED = [int(format(c, "05b")[::-1], 2) for c in range(32)]

# SIB1 with one network in a block of 120 bits, and one of 205 bits with all that may be there but an extension
PLAIN = "404004030001000000180000000000"
FULL = "74cc4282109834561579bdeed2d2d2c9e07e12205fe13e0346f8"


def bits_of(value, width):
    return [value >> (width - 1 - i) & 1 for i in range(width)]


def gold(c_init, count):
    x1 = [1] + [0] * 30
    x2 = [c_init >> i & 1 for i in range(31)]
    for n in range(1600 + count - 31):
        x1.append((x1[n + 3] + x1[n]) % 2)
        x2.append((x2[n + 3] + x2[n + 2] + x2[n + 1] + x2[n]) % 2)
    return [(x1[n + 1600] + x2[n + 1600]) % 2 for n in range(count)]


def remainder(bits, powers, width):
    work = list(bits) + [0] * width
    for i in range(len(bits)):
        if work[i]:
            for p in powers:
                work[i + width - p] ^= 1
    return work[-width:]


def crc16(bits):
    return remainder(bits, (16, 12, 5, 0), 16)


def crc24a(bits):
    return remainder(bits, (24, 23, 18, 17, 14, 11, 10, 7, 6, 5, 4, 3, 1, 0), 24)


def interleaved(items, order):
    """A list written into rows of 32 with nulls in front, and read column by column (TS 36.212 section 5.1.4)."""
    rows = (len(items) + 31) // 32
    filled = [None] * (32 * rows - len(items)) + list(items)
    return [filled[32 * r + c] for c in order for r in range(rows)]


def tail_biting(word, count):
    n = len(word)
    taps = ((0, 2, 3, 5, 6), (0, 1, 2, 3, 6), (0, 1, 2, 4, 6))
    stream = []
    for t in taps:
        coded = [sum(word[(k - d) % n] for d in t) % 2 for k in range(n)]
        stream += [b for b in interleaved(coded, REVERSED[16:] + REVERSED[:16]) if b is not None]
    return [stream[i % len(stream)] for i in range(count)]


def constituent(word):
    a = [0, 0, 0]
    parity, xs, zs = [], [], []
    for u in word:
        a.append((u + a[-2] + a[-3]) % 2)
        parity.append((a[-1] + a[-2] + a[-4]) % 2)
    for _ in range(3):
        xs.append((a[-2] + a[-3]) % 2)
        a.append(0)
        zs.append((a[-2] + a[-4]) % 2)
    return parity, xs, zs


def turbo(block, rv, count, good=True):
    word = block + crc24a(block)
    if not good:
        word[-1] ^= 1
    k = len(word)
    f1, f2 = INTERLEAVER[k]
    z, x, t = constituent(word)
    z2, x2, t2 = constituent([word[(f1 * i + f2 * i * i) % k] for i in range(k)])
    d0 = word + [x[0], t[1], x2[0], t2[1]]
    d1 = z + [t[0], x[2], t2[0], x2[2]]
    d2 = z2 + [x[1], t[2], x2[1], t2[2]]
    rows = (k + 4 + 31) // 32
    size = 32 * rows
    v0, v1 = interleaved(d0, REVERSED), interleaved(d1, REVERSED)
    filled = [None] * (size - k - 4) + d2
    v2 = [filled[(REVERSED[i // rows] + 32 * (i % rows) + 1) % size] for i in range(size)]
    buffer = v0 + [b for pair in zip(v1, v2) for b in pair]
    start = rows * (2 * ((3 * size + 8 * rows - 1) // (8 * rows)) * rv + 2)
    out, at = [], start
    while len(out) < count:
        b = buffer[at % len(buffer)]
        if b is not None:
            out.append(b)
        at += 1
    return out


def riv(start, blocks):
    return 6 * (blocks - 1) + start if blocks - 1 <= 3 else 6 * (6 - blocks + 1) + (6 - 1 - start)


def control_word(value, mcs, rv, low, flag=1, distributed=0, check=True):
    word = [flag, distributed] + bits_of(value, 5) + bits_of(mcs, 5) + bits_of(0, 4) + bits_of(rv, 2) + [0, low, 0]
    mask = [1] * 16 if check else [0] * 16
    return word + [a ^ b for a, b in zip(crc16(word), mask)]


class Subframe:
    def __init__(self, identity, cfi):
        self.identity, self.cfi = identity, cfi
        self.grid = {}

    def put(self, places, bits, c_init):
        sequence = gold(c_init, len(bits))
        sent = [a ^ b for a, b in zip(bits, sequence)]
        for i, place in enumerate(places[: len(bits) // 2]):
            self.grid[place] = 2 * sent[2 * i] + sent[2 * i + 1]

    def references(self):
        i = self.identity
        for symbol in (0, 4, 7, 11):
            slot, l = 10 + symbol // 7, symbol % 7
            c = gold(2**10 * (7 * (slot + 1) + l + 1) * (2 * i + 1) + 2 * i + 1, 240)
            for m in range(12):
                k = 6 * m + ((0 if l == 0 else 3) + i) % 6
                self.grid[symbol, k] = 2 * c[2 * (m + 104)] + c[2 * (m + 104) + 1]

    def group(self, symbol, first):
        if symbol == 0:
            return [(0, k) for k in range(first, first + 6) if k % 3 != self.identity % 3]
        return [(symbol, k) for k in range(first, first + 4)]

    def indicator_groups(self):
        return [(0, (6 * (self.identity % 12) + 18 * i) % 72) for i in range(4)]

    def indicator(self):
        i = self.identity
        bits = [0 if n % 3 == self.cfi - 1 else 1 for n in range(32)]
        places = [p for g in self.indicator_groups() for p in self.group(*g)]
        self.put(places, bits, (5 + 1) * (2 * i + 1) * 2**9 + i)

    def control_groups(self, extended, phich):
        taken = self.indicator_groups()
        by_symbol = [[(s, f) for f in range(0, 72, 6 if s == 0 else 4) if (s, f) not in taken] for s in range(4)]
        n0 = len(by_symbol[0])
        hidden = set()
        for m in range(phich):
            for i in range(3):
                groups = by_symbol[i if extended else 0]
                n = len(groups)
                hidden.add(groups[(self.identity * n // n0 + m + i * n // 3) % n])
        region = [g for s in range(self.cfi + 1) for g in by_symbol[s] if g not in hidden]
        return sorted(region, key=lambda g: (g[1], g[0]))

    def control(self, word, extended, phich):
        groups = self.control_groups(extended, phich)
        bits = tail_biting(word, 288)
        scrambled = [a ^ b for a, b in zip(bits, gold(5 * 2**9 + self.identity, 288))]
        order = [q for q in interleaved(range(len(groups)), REVERSED[16:] + REVERSED[:16]) if q is not None]
        for r, g in enumerate(groups):
            q = order[(r + self.identity) % len(groups)]
            if q < 36:
                for j, place in enumerate(self.group(*g)):
                    self.grid[place] = 2 * scrambled[8 * q + 2 * j] + scrambled[8 * q + 2 * j + 1]

    def shared_places(self, start, blocks):
        places = []
        for symbol in range(self.cfi + 1, 14):
            if symbol in (5, 6):
                continue
            for k in range(12 * start, 12 * (start + blocks)):
                if symbol in (0, 4, 7, 11) and (k - self.identity - (3 if symbol % 7 == 4 else 0)) % 6 == 0:
                    continue
                places.append((symbol, k))
        return places

    def shared(self, block, start, blocks, rv, good=True):
        places = self.shared_places(start, blocks)
        bits = turbo(block, rv, 2 * len(places), good)
        self.put(places, bits, 65535 * 2**14 + 5 * 2**9 + self.identity)
        return bits

    def row(self, symbol):
        return "".join(str(self.grid.get((symbol, k), ".")) for k in range(72))


def show(name, rows):
    kind = "Rows" if len(rows) == 5 else "[&[u8; 72]; %d]" % len(rows)
    print("const %s: %s = [" % (name, kind))
    for row in rows:
        print("    EMPTY," if set(row) == {"."} else '    b"%s",' % row)
    print("];\n")


def filled(text, size):
    return text + [0] * (size - len(text))


def text_of_hex(digits):
    return bits_of(int(digits, 16), 4 * len(digits))


def show_bits(name, bits):
    print("const %s: &[u8; %d] =" % (name, len(bits)))
    digits = "".join(map(str, bits))
    lines = [digits[i : i + 72] for i in range(0, len(digits), 72)]
    print('    b"' + "\\\n    ".join(lines) + '";\n')


def show_shared(name, identity, cfi, start, blocks, size, column_rv, text):
    """The shared channel alone, with its coded bits."""
    sent = Subframe(identity, cfi)
    sent.references()
    bits = sent.shared(filled(text, size), start, blocks, column_rv)
    show(name + "_10", [sent.row(s) for s in range(5)])
    show(name + "_11", [sent.row(s) for s in range(7, 14)])
    show_bits(name + "_BITS", bits)


def whole(identity, cfi, extended, phich, word, block, start, blocks, rv, good=True):
    sent = Subframe(identity, cfi)
    sent.references()
    sent.indicator()
    if word:
        sent.control(word, extended, phich)
    if block:
        sent.shared(block, start, blocks, rv, good)
    return sent


def plain(word=None, block=None, good=True):
    """Identity 0, indicator 2, duration normal and resource one, all six blocks."""
    word = word or control_word(riv(0, 6), 4, 0, 0)
    return whole(0, 2, False, 1, word, block or text_of_hex(PLAIN), 0, 6, 0, good)


def changed(first, bits):
    text = text_of_hex(PLAIN)
    return text[:first] + bits + text[first + len(bits) :]


def show_control(name, sent):
    show(name, [sent.row(s) for s in range(3)])


def show_block(name, sent):
    show(name, [sent.row(s) for s in (3, 4)] + [sent.row(s) for s in range(7, 14)])


def main():
    show_shared("ONE", 77, 2, 2, 1, 32, 0, bits_of(0x9A3B5D71, 32))
    show_shared("TWO", 503, 3, 4, 2, 120, 3, text_of_hex(PLAIN))
    sent = plain()
    show_control("PLAIN_CONTROL", sent)
    show_block("PLAIN_BLOCK", sent)
    full = whole(503, 3, True, 2, control_word(riv(1, 5), 5, 2, 1), filled(text_of_hex(FULL), 224), 1, 5, 2)
    show("FULL_10", [full.row(s) for s in range(5)])
    show("FULL_11", [full.row(s) for s in range(7, 14)])
    show_control("NO_CHECK", plain(control_word(riv(0, 6), 4, 0, 0, check=False)))
    show_control("ANOTHER_FORMAT", plain(control_word(riv(0, 6), 4, 0, 0, flag=0)))
    show_control("DISTRIBUTED", plain(control_word(riv(0, 6), 4, 0, 0, distributed=1)))
    show_control("VALUE_21", plain(control_word(21, 4, 0, 0)))
    show_control("SCHEME_27", plain(control_word(riv(0, 6), 27, 0, 0)))
    show_control("SCHEME_22", plain(control_word(riv(0, 6), 22, 0, 0)))
    show_control("ONE_SYMBOL", whole(0, 1, False, 1, None, None, 0, 6, 0))
    show_block("BAD_CHECK", plain(good=False))
    show_block("OTHER_MESSAGE", plain(block=changed(0, [0, 0])))
    show_block("DIGIT_11", plain(block=changed(10, [1, 0, 1, 1])))


if __name__ == "__main__":
    main()
