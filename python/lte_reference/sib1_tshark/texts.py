#!/usr/bin/env python3
"""Makes texts of SystemInformationBlockType1, each with its fields: over all optional fields, all counts of
networks, entries and blocks, and all values of the short fields.

The encoder is written from the ASN.1 of TS 36.331 section 6.2.2 and the rules of X.691 for unaligned PER;
nothing is shared with the repository's code.

    python3 -m lte_reference.sib1_tshark.texts > texts.jsonl

Each line is {"bits": "01..", "fields": {..}}, or {"bits": "01..", "bad": PLACE} where a field is bad.
"""
import json
import random

PERIODS = ["rf8", "rf16", "rf32", "rf64", "rf128", "rf256", "rf512"]
WINDOWS = ["ms1", "ms2", "ms5", "ms10", "ms15", "ms20", "ms40"]
OPTIONAL = ["p_max", "tdd", "extension", "csg_identity", "offset"]


def bits(value, width):
    assert 0 <= value < 1 << width
    return format(value, f"0{width}b")


def constrained(value, low, high):
    """A whole number from low to high (X.691 section 10.5)."""
    assert low <= value <= high
    return bits(value - low, (high - low).bit_length())


def digits(text):
    return "".join(constrained(int(digit), 0, 9) for digit in text)


def plmn(network):
    mcc, mnc, reserved = network
    out = "0" if mcc is None else "1" + digits(mcc)
    out += constrained(len(mnc), 2, 3) + digits(mnc)
    return out + ("0" if reserved else "1")


def sib(code):
    # an enumeration of 16 with an extension, whose index is a small number (sections 13.3 and 10.6)
    return "0" + bits(code, 4) if code < 16 else "1" + "0" + bits(code - 16, 6)


def entry(item):
    period, sibs = item
    return constrained(PERIODS.index(period), 0, 6) + constrained(len(sibs), 0, 31) + "".join(map(sib, sibs))


def optional(value, code):
    return "" if value is None else code(value)


def text(f):
    present = lambda name: "0" if f[name] is None else "1"
    access = present("csg_identity")
    access += constrained(len(f["plmns"]), 1, 6) + "".join(map(plmn, f["plmns"]))
    access += bits(f["tac"], 16) + bits(f["cell"], 28)
    access += "0" if f["barred"] else "1"
    access += "0" if f["allowed"] else "1"
    access += "1" if f["csg"] else "0"
    access += optional(f["csg_identity"], lambda value: bits(value, 27))
    selection = present("offset") + constrained(f["rx"], -70, -22)
    selection += optional(f["offset"], lambda value: constrained(value, 1, 8))
    out = "0" + "1" + present("p_max") + present("tdd") + ("1" if f["extension"] else "0")
    out += access + selection + optional(f["p_max"], lambda value: constrained(value, -30, 33))
    out += constrained(f["band"], 1, 64)
    out += constrained(len(f["entries"]), 1, 32) + "".join(map(entry, f["entries"]))
    out += optional(f["tdd"], lambda pair: constrained(pair[0], 0, 6) + constrained(pair[1], 0, 8))
    return out + constrained(WINDOWS.index(f["window"]), 0, 6) + constrained(f["tag"], 0, 31)


def network(rng, mcc):
    number = lambda count: "".join(rng.choice("0123456789") for _ in range(count))
    return [number(3) if mcc else None, number(rng.choice([2, 3])), rng.random() < 0.5]


def fields(rng):
    """Fields without optional ones."""
    return {
        "plmns": [network(rng, True)],
        "tac": rng.randrange(1 << 16),
        "cell": rng.randrange(1 << 28),
        "barred": rng.random() < 0.5,
        "allowed": rng.random() < 0.5,
        "csg": rng.random() < 0.5,
        "csg_identity": None,
        "rx": rng.randint(-70, -22),
        "offset": None,
        "p_max": None,
        "band": rng.randint(1, 64),
        "entries": [[rng.choice(PERIODS), []]],
        "tdd": None,
        "window": rng.choice(WINDOWS),
        "tag": rng.randrange(32),
        "extension": False,
    }


def with_optional(rng, f, names):
    values = {
        "p_max": rng.randint(-30, 33),
        "tdd": [rng.randrange(7), rng.randrange(9)],
        "extension": True,
        "csg_identity": rng.randrange(1 << 27),
        "offset": rng.randint(1, 8),
    }
    f.update({name: values[name] for name in names})
    return f


def code(rng):
    return rng.choice([rng.randrange(16), rng.randrange(80)])


def whole():
    """Texts that are whole, at most 1,000 bits each."""
    rng = random.Random(36331)
    out = []
    for chosen in range(32):
        names = [name for place, name in enumerate(OPTIONAL) if chosen >> place & 1]
        out.append(with_optional(rng, fields(rng), names))
    for count in range(1, 7):
        for chosen in [0, (1 << count) - 1, rng.randrange(1 << count)]:
            f = fields(rng)
            f["plmns"] = [network(rng, place == 0 or chosen >> place & 1) for place in range(count)]
            out.append(f)
    for count in range(1, 33):
        f = fields(rng)
        f["entries"] = [[rng.choice(PERIODS), [code(rng) for _ in range(rng.randrange(3))]] for _ in range(count)]
        out.append(f)
    for count in range(32):
        f = fields(rng)
        f["entries"].append([PERIODS[count % 7], [(5 * count + n) % 80 for n in range(count)]])
        out.append(f)
    for n in range(64):
        f = fields(rng)
        f.update(band=n + 1, p_max=n - 30, rx=n % 49 - 70, offset=n % 8 + 1, tdd=[n % 7, n % 9], window=WINDOWS[n % 7])
        f.update(
            tag=n % 32,
            csg_identity=[0, (1 << 27) - 1][n % 2],
            cell=[0, (1 << 28) - 1][n // 2 % 2],
            tac=[0, 65535][n // 4 % 2],
        )
        f["entries"] = [[PERIODS[n % 7], [n, 79 - n]]]
        out.append(f)
    while len(out) < 260:
        f = with_optional(rng, fields(rng), [name for name in OPTIONAL if rng.random() < 0.5])
        f["plmns"] += [network(rng, rng.random() < 0.5) for _ in range(rng.randrange(6))]
        f["entries"] = [
            [rng.choice(PERIODS), [code(rng) for _ in range(rng.randrange(5))]] for _ in range(rng.randint(1, 12))
        ]
        if len(text(f)) <= 1000:
            out.append(f)
    return out


def main():
    for f in whole():
        bits = text(f)
        assert len(bits) <= 1000
        # an extension, where present, is one without contents
        print(json.dumps({"bits": bits + ("00" if f["extension"] else ""), "fields": f}))
    # what is refused: a first network without a country code, and a block's code in its long form
    f = fields(random.Random(1))
    f["plmns"][0][0] = None
    print(json.dumps({"bits": text(f), "bad": 9, "why": "first network without a country code"}))
    f = fields(random.Random(2))
    f["entries"] = [["rf8", [16]]]
    bits = text(f)
    place = len(bits) - 8 - 8 + 1
    # the long form: a length of one octet, and the octet (section 10.6.2)
    print(
        json.dumps(
            {
                "bits": bits[:place] + "1" + "00000001" + "00000000" + bits[place + 7 :],
                "bad": place,
                "why": "code in its long form",
            }
        )
    )


if __name__ == "__main__":
    main()
