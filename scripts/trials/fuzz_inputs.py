"""Random and spoiled inputs of lte_cli and lte_tune, for fuzz.py: recordings, descriptions, certificates and words."""
import array
import json
import pathlib
import re

SCRIPTS = pathlib.Path(__file__).resolve().parent.parent
EXAMPLES = SCRIPTS / "examples"
LEAST, MOST = 230_400, 7_680_000  # bytes of a recording
TEXT_MOST = 65_536  # bytes of a description
CERTIFICATES_MOST = 67_108_864  # bytes of certificates
# fmt: off
EDGES = [0, 1, 2, 3, 5, 6, 7, 8, 31, 32, 33, 64, 65, 503, 504, 1023, 1024, 19199, 19200, 57599, 57600, 65535, 65536,
         1_920_000, 1_920_001, 268_435_455, 268_435_456, 2**31, 2**32 - 1, 2**32, 2**63 - 1, 2**63, 2**64, 10**30]
TOKENS = [b'{', b'}', b'[', b']', b',', b':', b'"', b'null', b'true', b'-', b'-0', b'7.0', b'1e2', b'1E400', b'0x1',
          b'NaN', b'\\u0000', b'\\ud800', b'\\', b'\xff', b'\xc0\x80', b'\xef\xbb\xbf', b'\x00', b'/**/', b'\n',
          b'9' * 40, b'00']
# fmt: on


def spoiled(random, data):
    """The bytes with a few changes: cut, bits and bytes changed, pieces left out, doubled, put in."""
    data = bytearray(data)
    for _ in range(random.choice([1, 1, 1, 2, 3, 8])):
        at = random.randrange(len(data) + 1)
        length = random.choice([1, 2, 4, 16, 100, 1000])
        kind = random.randrange(6)
        if kind == 0:
            del data[at:]
        elif kind == 1:
            del data[at : at + length]
        elif kind == 2:
            data[at:at] = data[at : at + length]
        elif kind == 3:
            data[at : at + length] = random.randbytes(len(data[at : at + length]))
        elif kind == 4:
            data[at:at] = random.randbytes(length)
        elif data:
            data[min(at, len(data) - 1)] ^= 1 << random.randrange(8)
    return bytes(data)


# ---- words

CARRIERS = (
    [],
    ["--ports", "2"],
    ["--prefix", "long"],
    ["--ports", "4"],
)  # of `make`, `transmit`, `evidence`, `certify`
LISTS = (["--cancel"], ["--all"])  # of `search`; the second also of `evidence`
RULES = (*CARRIERS[1:], *LISTS)
SPANS = (["--deep"], ["--deep", "all"])  # of `ids`
REPORTS = ("hits", "ids", "search", "evidence", "tell")  # that `--json` stands behind
RATES = {"1.92": 1, "3.84": 2, "7.68": 4, "15.36": 8, "30.72": 16}  # each with its multiple of 1.92 million per second
PAGES = ("help", "--help", "-h", "version", "--version")
PAGE = "page"  # any of these


def is_turn(word):
    """Whether the word is a turn, in digits without leading zero."""
    return re.fullmatch(r"0|-?[1-9][0-9]*", word) is not None and -2048 <= int(word) <= 2047


def words(random, command):
    """The words of a command in one of its forms, some of them of no command."""
    if command == PAGE:
        return [random.choice(PAGES)] + random.choices([[], ["help"], ["--json"]], [94, 3, 3])[0]
    if command == "make":
        number = str(random.choice([0, 90, 2**32 - 46, 90 * random.randrange(10**6)]))
        return ["make", number] + random.choices([*CARRIERS, *LISTS], [56, 14, 14, 14, 1, 1])[0]
    if command == "transmit":
        return ["transmit"] + random.choices([*CARRIERS, *LISTS], [44, 18, 18, 18, 1, 1])[0] + load_words(random)
    if command not in (*REPORTS, "certify", "apply"):
        return [command]
    front = [command]
    if command == "apply":
        turn = random.choice(["", str(random.randrange(-2100, 2100)), "-2048", "2047", "-0", "05", "+5", "2048"])
        front += [turn] * (turn != "")
    elif command == "search" and random.random() < 0.35:
        front += random.choice(RULES)
    elif command == "ids" and random.random() < 0.5:
        front += random.choices([*SPANS, ["all"], ["--deep", "1"]], [48, 48, 2, 2])[0]
    elif command == "evidence" and random.random() < 0.35:
        front += random.choices(RULES, [25, 25, 25, 2, 23])[0]
    elif command == "certify" and random.random() < 0.35:
        front += random.choices(RULES, [32, 32, 32, 2, 2])[0]
    json_words = ["--json"] if random.random() < (0.25 if command in REPORTS else 0.03) else []
    form = random.choices([[], ["--format", "cu8"], ["--format", "ci8"], ["--format"]], [80, 15, 2, 1])[0]
    behind = [json_words, form]
    if random.random() < 0.05:  # in another order, or one of them twice
        behind = random.choice([[form, json_words], [json_words, json_words, form], [json_words, form, form]])
    if random.random() < 0.01:
        return [command] + json_words + front[1:] + form
    return front + sum(behind, []) + rate_words(random)


def rate_words(random):
    """Returns no arguments, the arguments of a rate, or nearly valid ones."""
    bad = random.choice([["--rate"], ["--rate", "2.4"], ["--rate", "1.920"], ["3.84"], ["--rate", "3.84", "--json"]])
    return random.choices([[], ["--rate", random.choice(list(RATES))], bad], [80, 18, 2])[0]


def rate_of(given):
    """The words without a rate at their end, and the rate as a multiple of 1.92 million samples per second."""
    if given[-2:-1] == ["--rate"] and given[-1] in RATES:
        return given[:-2], RATES[given[-1]]
    return given, 1


def load_words(random):
    """Returns no arguments, the arguments of a load, or nearly valid ones."""
    number = str(random.choice([0, 7, 2**31, 2**32 - 1, random.randrange(2**32)]))
    bad = random.choice(["", "-1", "+1", "07", str(2**32), "1e3", "9" * 1000, "--load"])
    near = [["--load"], ["--load", bad], ["--load", number, number], [number], ["--load", number, "--ports", "4"]]
    return random.choices([[], ["--load", number], random.choice(near)], [50, 45, 5])[0]


def is_sent(given):
    """Whether these words of `transmit` are of a form."""
    rest = given[1:]
    if rest[-2:-1] == ["--load"] and re.fullmatch(r"0|[1-9][0-9]{0,9}", rest[-1]) and int(rest[-1]) < 2**32:
        rest = rest[:-2]
    return rest in CARRIERS


def is_form(given):
    """Whether these words, of a command on a recording, are of a form."""
    command, *rest = rate_of(given)[0]
    if rest[-2:] == ["--format", "cu8"]:
        rest = rest[:-2]
    if rest[-1:] == ["--json"] and command in REPORTS:
        rest = rest[:-1]
    if command == "apply" and len(rest) == 1:
        return is_turn(rest[0])
    rules = {"ids": SPANS, "search": RULES, "evidence": (*CARRIERS, ["--all"]), "certify": CARRIERS}
    return rest == [] or rest in rules.get(command, ())


def shown(given):
    """The words, with a letter for each number."""
    if given[0] == "make":
        return " ".join(["make N", *given[2:]])
    if given[0] == "transmit":
        pairs = zip(given, given[1:])
        return " ".join(["transmit", *("N" if b[:1].isdigit() and a != "--ports" else b for a, b in pairs)])
    if given[0] == "apply" and given[1:] and not given[1].startswith("--"):
        return " ".join(["apply M", *given[2:]])
    return " ".join(given)


def nonsense(random):
    """Words of no command."""
    further = ["é", "\udcff", "certify2", "hit", "0", "null"]
    bad = ["-help", "--h", "--json", "--format", "cu8", "x" * 100_000] + further
    kind = random.randrange(4)
    if kind == 0:
        return []
    if kind == 1:
        number = random.choice(
            ["", "-1", "+1", "00", "07", "4294967296", "1e3", " 1", "1 ", "9" * 1000, "0x10", "-0", "\u0663"]
        )
        return ["make", number] + random.choice([[], [], ["7"]])
    if kind == 2:
        first = random.choice(bad + ["", "Hits", "search ", " ids", "transmit\n"])
        return [first] + random.sample(bad, random.randrange(3))
    command = random.choice(["hits", "ids", "search", "evidence", "certify", "check", "transmit", "make"])
    more = [] if command == "make" else [random.choice(bad)]
    return [command] + more + random.sample(further, random.randrange(3)) + [random.choice(["x", "hits"])]


# ---- recordings


def full_scale(random, count):
    values = random.choice(
        [[32767], [-32768], [32767, -32768], [0, 32767], [-32768, -32767, 32766, 32767], [1, -1], [0, 0, 0, 1]]
    )
    step = random.choice([1, 2, 64, 128, 256, 9600])
    row = [random.choice(values) for _ in range(2 * step)]
    return array.array("h", (row * (2 * count // len(row) + 1))[: 2 * count]).tobytes()


def repeated(random, data, count):
    """A piece of the recording again and again: many hits."""
    period = random.choice([128, 137, 200, 256, 400, 960, 9600])
    at = 4 * random.randrange(len(data) // 4 - period)
    return (data[at : at + 4 * period] * (count // period + 1))[: 4 * count]


def changed_numbers(random, data):
    numbers = array.array("h", data)
    factor, shift, kind = random.choice([0.01, 0.3, 3, 50]), random.randrange(-30000, 30000), random.randrange(4)
    if kind == 0:
        numbers = array.array("h", (max(-32768, min(32767, int(factor * x))) for x in numbers))
    elif kind == 1:
        numbers = array.array("h", (max(-32768, min(32767, x + shift)) for x in numbers))
    elif kind == 2:
        numbers[0::2], numbers[1::2] = numbers[1::2], numbers[0::2]
    else:
        numbers.byteswap()
    return numbers.tobytes()


def spliced(random, data, other):
    """Replaces a piece of the recording by noise, zeros or a piece of another recording."""
    length = 4 * random.choice([1, 9, 128, 137, 960, 9600, 19200])
    at = 4 * random.randrange(max(1, (len(data) - length) // 4))
    piece = random.choice([bytes(length), random.randbytes(length), full_scale(random, length // 4), other[:length]])
    return data[:at] + piece + data[at + length :]


def whole_recording(random, sent):
    """Three frames and more, which are searched."""
    data, other = random.choice(sent), random.choice(sent)
    kind = random.randrange(8)
    if kind == 0:
        return random.randbytes(LEAST + 4 * random.randrange(1000))
    if kind == 1:
        return full_scale(random, LEAST // 4 + random.randrange(1000))
    if kind == 2:
        return repeated(random, data, LEAST // 4 + random.choice([0, 1, 19200]))
    if kind == 3:
        return changed_numbers(random, data)
    if kind == 4:
        return spliced(random, data, other)
    if kind == 5:
        at = 4 * random.randrange(len(data) // 4)
        return data[at:] + data[:at]
    if kind == 6:
        return spliced(random, spliced(random, data, other), other)
    return spoiled(random, data)


def as_bytes(data):
    """Returns the recording as 8-bit numbers at maximum magnitude (`cu8`)."""
    numbers = array.array("h", data[: len(data) // 2 * 2])
    factor = 127 / max(1, max(map(abs, numbers), default=1))
    return bytes(int(128 + factor * number) for number in numbers) + data[len(data) // 2 * 2 :]


def recording(random, sent):
    chance = random.random()
    if chance < 0.55:
        return random.randbytes(random.choice([0, 1, 2, 3, 4, 5, 4095, 4096, 4097, random.randrange(30_000)]))
    if chance < 0.80:
        data = random.choice(sent)
        return data[: random.randrange(LEAST)]
    if chance < 0.86:
        return (random.choice(sent) * 2)[: random.choice([LEAST // 2, LEAST]) + random.randrange(-5, 6)]
    if chance < 0.8625:
        return (random.randbytes(4096) * 1876)[: MOST + random.randrange(-4, 5)]
    return whole_recording(random, sent)


# ---- descriptions


def valid_description(random):
    """A description within all ranges; mostly three frames, now and then one that does not fit."""
    full = random.random() < 0.2
    pick = random.randrange
    network = lambda first: {
        "mcc": f"{pick(1000):03}" if first or pick(2) else None,
        "mnc": f"{pick(100):02}" if pick(2) else f"{pick(1000):03}",
        "reserved": pick(2) == 1,
    }
    entry = lambda: {"period": 8 << pick(7), "sibs": [pick(80) for _ in range(pick(32 if full else 3))]}
    real = pick(-28, 29)
    rest = int((784 - real * real) ** 0.5)
    return {
        "identity": pick(504),
        "sfn": pick(1024),
        "offset": pick(19200),
        "samples": random.choice([57600, 57600, 57600 + pick(40000)]),
        "gain": [real, pick(-rest, rest + 1) if rest else 0] if real else [1, 0],
        "duration": random.choice(["normal", "extended"]),
        "resource": random.choice(["oneSixth", "half", "one", "two"]),
        "spare": pick(1024),
        "cfi": 2 + pick(2),
        "start": 0,
        "blocks": 6,
        "mcs": random.choice([4, 5, 6, 8, 11, 13]),
        "column": 2 + pick(2),
        "sib1": {
            "plmns": [network(i == 0) for i in range(1 + (pick(6) if full else 0))],
            "tac": pick(65536),
            "cell": pick(2**28),
            "barred": pick(2) == 1,
            "intra": pick(2) == 1,
            "csg": pick(2) == 1,
            "csg_identity": pick(2**27) if pick(3) == 0 else None,
            "q_rx": -70 + pick(49),
            "q_offset": 1 + pick(8) if pick(3) == 0 else None,
            "p_max": -30 + pick(64) if pick(2) else None,
            "band": 1 + pick(64),
            "scheduling": [entry() for _ in range(1 + (pick(32) if full else pick(3)))],
            "window": random.choice([1, 2, 5, 10, 15, 20, 40]),
            "tag": pick(32),
        },
    }


def places(value, above=()):
    """The paths of all members within a value."""
    members = value.items() if isinstance(value, dict) else enumerate(value) if isinstance(value, list) else ()
    for key, member in members:
        yield above + (key,)
        yield from places(member, above + (key,))


def odd_value(random):
    number = random.choice(EDGES) * random.choice([1, -1])
    return random.choice(
        [
            number,
            number,
            number,
            None,
            True,
            "",
            "normal",
            "01",
            "001",
            "x" * 1000,
            0.5,
            1e300,
            [],
            {},
            [number],
            [[[]]],
            {"period": 8, "sibs": []},
            [1] * 33,
            [{}] * 7,
        ]
    )


def with_odd_value(random, description):
    """A value changed, a key left out, or a further key."""
    description = json.loads(json.dumps(description))
    for _ in range(random.choice([1, 1, 1, 2])):
        path = random.choice(list(places(description)))
        holder = description
        for key in path[:-1]:
            holder = holder[key]
        kind = random.randrange(6)
        if kind == 0:
            del holder[path[-1]]
        elif kind == 1 and isinstance(holder, dict):
            holder[random.choice(["", "extra", "Identity", "identity ", "sib1", "gain"])] = odd_value(random)
        else:
            holder[path[-1]] = odd_value(random)
    return description


def long_text(random, text):
    """Deep nesting, long numbers and texts, and lengths about the limit."""
    count = random.choice([10, 127, 128, 129, 1000, 20_000, 65_000, 70_000])
    kind = random.randrange(7)
    if kind == 0:
        return b"[" * count + b"]" * random.choice([0, count])
    if kind == 1:
        return b'{"sib1":' * (count // 8) + b"1" + b"}" * random.choice([0, count // 8])
    if kind == 2:
        return text.replace(b'"sfn": ', b'"sfn": ' + random.choice([b"0", b"1", b"-", b"9"]) * count, 1)
    if kind == 3:
        return text.replace(b'"sib1": ', b'"sib1": ' + b"[" * count, 1)
    if kind == 4:
        return text + random.choice([b" ", b"\n", b"\x00", b"{", b'"']) * count
    if kind == 5:
        return text + b" " * max(0, TEXT_MOST - len(text) + random.randrange(-1, 2))
    return text[:-1] + b', "' + b"a" * count + b'": ' + b"1." + b"0" * count + b"}"


FURTHER_GAINS = ("gain2", "gain3", "gain4")


def with_gains(random, value, ports):
    """Returns the description for this number of antenna ports, mostly with gains that fit."""
    pick, reach = random.randrange, {1: 19, 2: 9, 4: 4}[ports]
    value = {key: value[key] for key in value if key not in FURTHER_GAINS}
    further = FURTHER_GAINS[: ports - 1]
    if not pick(10):
        return {**value, **{key: [pick(30), pick(30)] for key in further}}
    fitting = {key: [pick(-reach, reach + 1), pick(-reach, reach + 1)] for key in further}
    return {**value, "gain": [pick(1, reach + 2), pick(-reach, reach + 1)], **fitting}


def description(random, shown, ports=1):
    """Returns a description, spoiled or not, mostly for this number of antenna ports."""
    chance = random.random()
    value = random.choice(shown) if random.random() < 0.5 else valid_description(random)
    likely = ports if random.random() < 0.93 else random.choice([1, 2, 4])
    if likely != 1 or "gain2" in value:
        value = with_gains(random, value, likely)
    if chance < 0.5:
        return json.dumps(with_odd_value(random, value)).encode()
    text = json.dumps(value).encode()
    if chance < 0.75:
        return spoiled(random, text)
    if chance < 0.85:
        at = random.randrange(len(text))
        return text[:at] + random.choice(TOKENS) + text[at + random.choice([0, 1, 5]) :]
    if chance < 0.92:
        return long_text(random, text)
    if chance < 0.94:
        return random.randbytes(random.randrange(2000))
    if chance < 0.95:
        return text[:-1] + b', "sfn": ' + str(random.choice(EDGES)).encode() + b"}"
    return text


# ---- certificates


def old_certificate(random):
    """One of the first form, with the mark LTC1 and 64 tables: of zeros, or spoiled."""
    values = array.array("h", (random.randrange(-2100, 2100) for _ in range(120))).tobytes()
    data = b"LTC1" + random.choice([bytes(240), values]) + bytes(655_613 - 244)
    return data if random.random() < 0.5 else spoiled(random, data)


def certificates(random, made):
    chance = random.random()
    data = random.choice(made)
    if chance < 0.35:
        return spoiled(random, data)
    if chance < 0.60:
        return data[: random.choice([0, 1, 3, 4, 5, 243, 244, 245, 252, 253, random.randrange(len(data))])]
    if chance < 0.75:
        place = random.randrange(min(len(data), random.choice([4, 253, len(data)])))
        return data[:place] + random.randbytes(1) + data[place + 1 :]
    if chance < 0.85:
        return old_certificate(random)
    if chance < 0.95:
        several = b"".join(random.choice(made) for _ in range(random.randrange(1, 4)))
        return several + random.choice([b"", data[:3], random.randbytes(9)])
    if chance < 0.951:
        return (data * (CERTIFICATES_MOST // len(data) + 1))[: CERTIFICATES_MOST + random.randrange(-1, 2)]
    return random.choice([b"", b"LTC1", b"LTC2", random.randbytes(random.randrange(2000))])


def short_plain_cell():
    """The plainest description, of three frames."""
    return {**json.loads((EXAMPLES / "plain_cell.json").read_text()), "samples": LEAST // 4}


def shown_descriptions():
    """The descriptions of the repository, and each as three frames."""
    shown = [json.loads(name.read_text()) for name in sorted(EXAMPLES.glob("*.json"))]
    return shown + [{**value, "samples": 57600} for value in shown]
