#!/usr/bin/env python3
"""A second program for the turbo decoder, from which the tables of the tests of `turbo_dec` come.

The extrinsic values of the short words are maxima over all words, one by one. A block is decoded by the same
iterations over a recursion on the 8 states, which is first compared with those maxima. The encoder is that of
TS 36.212 section 5.1.3.2, the check that of section 5.1.1; nothing is shared with the repository's code.

    python3 -m lte_reference.turbo
"""
import random

ROWS = {32: (56, 19, 42), 120: (144, 17, 108), 176: (200, 13, 50)}

# systematic values, parity values, tail values x z x z x z, priors
# fmt: off
WORDS = [
    ([-7], [5], [1, 2, 3, 4, 5, 6], [9]),
    ([0], [4096], [4096] * 6, [0]),
    ([6], [0], [4, 6, -5, 0, -1, -5], [1]),
    ([-3610], [-1336], [3053, -2040, 3647, 307, -602, -2500], [1904]),
    ([-2, -1], [0, -1], [1, 2, -2, 2, -1, -2], [-2, -1]),
    ([-36, -11], [28, 29], [-33, 0, -11, 31, 30, -40], [-614, -98]),
    ([2, -3, -2], [2, -3, -2], [-2, -3, 3, 1, -1, 0], [-1, -3, -3]),
    ([-4096, 4096, -4096], [-4096, 4096, 4096], [-4096, 4096, 4096, -4096, -4096, -4096], [-4096, -4096, -4096]),
    ([-1473, -169, -2314, -609, 39], [-1701, 1111, 1392, 1523, -371], [-2060, 779, 714, -122, 982, -1362],
     [-1028, 2428, -1444, 850, -1812]),
    ([273, -101, 976, -812, -471, -604, 338, -50], [680, -1038, 106, 410, -308, -304, -1029, 356],
     [-580, 525, -331, 605, -91, -1034], [347, -336, -327, -545, -155, -563, 256, -154]),
    ([-3, 1, -2, 2, 2, 3, 0, 3, -1, -3, -3], [-3, 0, 1, 1, -3, 3, -1, 3, 3, -2, -2], [-3, -3, 0, 3, 0, -1], [0] * 11),
    ([1915, 59, -3592, 2690, -1189, 3147, 2434, 3156, 131, -1173, -2151],
     [3527, 763, 2127, -2246, 1649, -624, -2772, 2950, 1638, 3727, -3778], [3710, -1534, -3991, 284, -1387, -2515],
     [-458, 289, -578, -493, 404, -1001, 499, 1378, 1419, -1164, -926]),
]

# a block, the gain and the spread of the noise, and the seed of the noise
RECEPTIONS = [
    ("9a3b5d71", 8, 17, 30415), ("c0ffee42", 8, 16, 4996), ("5eedf00d", 3, 6, 7408), ("9a3b5d71", 8, 17, 12371),
    ("80000001", 100, 205, 21512), ("1b2c3d4e", 2, 4, 21055), ("5eedf00d", 3, 6, 29008),
    ("7e57ab1e", 1000, 2000, 29537),
    ("0badcafe", 1800, 3700, 14632), ("c0ffee42", 1800, 3700, 5502), ("c0ffee42", 8, 16, 21517),
    ("80000001", 100, 205, 4),
    ("9a3b5d71", 8, 17, 1187), ("1b2c3d4e", 2, 4, 15997), ("0badcafe", 1800, 3700, 24847),
    ("123456789abcdef0fedcba98765432", 8, 17, 1089), ("00112233445566778899aabbccddeeff0123456789ab", 8, 18, 443),
]
# fmt: on


def clamped(e):
    return max(-2047, min(2047, e))


def handed_on(e):
    return e - (e // 4 if e >= 0 else -(-e // 4))


def encoder(word):
    """The parity bits, and the six tail bits x z x z x z."""
    a = [0, 0, 0]
    parity, tail = [], []
    for u in word:
        a.append((u + a[-2] + a[-3]) % 2)
        parity.append((a[-1] + a[-2] + a[-4]) % 2)
    for _ in range(3):
        tail += [(a[-2] + a[-3]) % 2, (a[-1] + a[-3]) % 2]
        a.append(0)
    return parity, tail


def extrinsics_of_all_words(systematic, parity, tail, prior):
    k = len(systematic)
    greatest = [[None] * k, [None] * k]
    for number in range(1 << k):
        word = [number >> i & 1 for i in range(k)]
        bits, ends = encoder(word)
        score = sum(systematic[i] + prior[i] for i in range(k) if word[i] == 0)
        score += sum(parity[i] for i in range(k) if bits[i] == 0) + sum(tail[i] for i in range(6) if ends[i] == 0)
        for i in range(k):
            if greatest[word[i]][i] is None or score > greatest[word[i]][i]:
                greatest[word[i]][i] = score
    return [clamped(greatest[0][i] - greatest[1][i] - systematic[i] - prior[i]) for i in range(k)]


def step(state, u):
    latest, middle, oldest = state >> 2, state >> 1 & 1, state & 1
    new = u ^ middle ^ oldest
    return 4 * new + 2 * latest + middle, new ^ latest ^ oldest


def tail_score(state, tail):
    score = 0
    for j in range(3):
        latest, middle, oldest = state >> 2, state >> 1 & 1, state & 1
        score += (tail[2 * j] if middle == oldest else 0) + (tail[2 * j + 1] if latest == oldest else 0)
        state >>= 1
    return score


def extrinsics(systematic, parity, tail, prior):
    k = len(systematic)

    def edge(i, state, u):
        after, bit = step(state, u)
        return after, (systematic[i] + prior[i] if u == 0 else 0) + (parity[i] if bit == 0 else 0)

    back = [[tail_score(state, tail) for state in range(8)]]
    for i in reversed(range(k)):
        back.insert(
            0, [max(score + back[0][after] for after, score in (edge(i, s, 0), edge(i, s, 1))) for s in range(8)]
        )
    front, found = {0: 0}, []
    for i in range(k):
        ways = [(u, edge(i, s, u), score) for s, score in front.items() for u in (0, 1)]
        zero, one = (max(score + e[1] + back[i + 1][e[0]] for u, e, score in ways if u == b) for b in (0, 1))
        found.append(clamped(zero - one - systematic[i] - prior[i]))
        front = {}
        for u, (after, gain), score in ways:
            front[after] = max(front.get(after, score + gain), score + gain)
    return found


def crc24a(bits):
    powers = [24, 23, 18, 17, 14, 11, 10, 7, 6, 5, 4, 3, 1, 0]
    rest = list(bits) + [0] * 24
    for i in range(len(bits)):
        if rest[i]:
            for p in powers:
                rest[i + 24 - p] ^= 1
    return rest[-24:]


def order(k, f1, f2):
    return [(f1 * i + f2 * i * i) % k for i in range(k)]


def received(block, gain, spread, seed):
    size = 4 * len(block)
    bits = [int(block, 16) >> (size - 1 - i) & 1 for i in range(size)]
    word = bits + crc24a(bits)
    k, f1, f2 = ROWS[size]
    first, second = encoder(word), encoder([word[p] for p in order(k, f1, f2)])
    streams = [list(word), list(first[0]), list(second[0])]
    for tail in (first[1], second[1]):
        for i, bit in enumerate(tail):
            streams[i % 3].append(bit)
    x = seed
    for stream in streams:
        for i, bit in enumerate(stream):
            x = (x * 1103515245 + 12345) % (1 << 31)
            noise = (x >> 16) % (2 * spread + 1) - spread
            stream[i] = max(-2047, min(2047, noise + (-gain if bit else gain)))
    return streams


def decoded(d, k, f1, f2):
    """The number of the first iterate that passes, and its block; nothing where none of eight does."""
    places = order(k, f1, f2)
    tails = [[d[t][p] for p in (start, start + 1) for t in range(3)] for start in (k, k + 2)]
    prior = [0] * k
    for n in range(1, 9):
        first = extrinsics(d[0][:k], d[1][:k], tails[0], prior)
        swapped = extrinsics([d[0][p] for p in places], d[2][:k], tails[1], [handed_on(first[p]) for p in places])
        second = [0] * k
        for i, p in enumerate(places):
            second[p] = swapped[i]
        prior = [handed_on(e) for e in second]
        word = [1 if d[0][i] + first[i] + second[i] < 0 else 0 for i in range(k)]
        if crc24a(word[:-24]) == word[-24:]:
            return n, word[:-24]
    return None


def main():
    rng = random.Random(1)
    for _ in range(200):
        k = rng.randint(1, 8)
        case = [[rng.randint(-9, 9) for _ in range(n)] for n in (k, k, 6, k)]
        assert extrinsics(*case) == extrinsics_of_all_words(*case)
    for case in WORDS:
        print(*case, extrinsics_of_all_words(*case))
    for block, gain, spread, seed in RECEPTIONS:
        d = received(block, gain, spread, seed)
        sizes = sum(abs(value) for stream in d for value in stream)
        answer = decoded(d, *ROWS[4 * len(block)])
        if answer is None:
            print(block, gain, spread, seed, sizes, "nothing")
        else:
            sent = "".join(map(str, answer[1])) == format(int(block, 16), "0%db" % (4 * len(block)))
            print(block, gain, spread, seed, sizes, "sent" if sent else "other", "by iterate", answer[0])


if __name__ == "__main__":
    main()
