"""tshark reads in the packets of lte_pcap what random cells sent: MIB and SIB1 field by field, frame, time and carrier.

Cells have one, two or four antenna ports or the extended prefix. Fields of SIB1 are drawn by sib1_tshark/texts.py, and
tshark's are read by sib1_tshark/compare.py. The seed is fixed.
"""
import json
import random
import re
import subprocess
import xml.etree.ElementTree as ElementTree
from typing import NamedTuple

import pytest

from lte_reference.sib1_tshark import compare, texts
from lte_tools import pcap
from tests.conftest import RECEIVER, needs

pytestmark = [pytest.mark.program, pytest.mark.slow, needs("tshark")]
RATE, FRAME, FRAMES = 1_920_000, 19_200, 1024
CELLS = 100
NEAR = 12  # samples by which a frame may seem to begin elsewhere
DURATIONS, RESOURCES = ("normal", "extended"), ("oneSixth", "half", "one", "two")  # TS 36.331 section 6.2.2
# bits of a text of SIB1 by MCS in column 2 (TS 36.213 table 7.1.7.2.1-1, of two blocks where that is one of them)
SIZES = {4: 120, 5: 144, 6: 176, 7: 224, 8: 256, 9: 296, 10: 328}
OPTIONAL = ("p_max", "csg_identity", "offset")
EARFCNS = (0, 303, 6300, 16_383, 70_595)


class Scheme(NamedTuple):
    """A transmission scheme: its arguments, gains of the antenna ports, and whether SIB1 is read."""

    words: tuple
    gains: dict
    has_sib1: bool


SCHEMES = (
    Scheme((), {"gain": [20, 9]}, True),
    Scheme(("--ports", "2"), {"gain": [8, 7], "gain2": [7, -7]}, True),
    Scheme(("--ports", "4"), {"gain": [4, -3], "gain2": [0, 4], "gain3": [-3, 1], "gain4": [0, -4]}, False),
    Scheme(("--prefix", "long"), {"gain": [20, 9]}, False),
)


# ---- what is sent


def fields(draw):
    """Returns fields of SIB1, as texts.py has them, whose text fits the largest size."""
    while True:
        found = texts.with_optional(draw, texts.fields(draw), [name for name in OPTIONAL if draw.random() < 0.5])
        found["plmns"] += [texts.network(draw, draw.random() < 0.5) for _ in range(draw.randrange(6))]
        found["entries"] = [
            [draw.choice(texts.PERIODS), [texts.code(draw) for _ in range(draw.randrange(4))]]
            for _ in range(draw.randint(1, 6))
        ]
        if len(texts.text(found)) <= max(SIZES.values()):
            return found


def description_of(sib1):
    """Returns the fields with the names of a description (docs/SYNTHETIC.md)."""
    return {
        "plmns": [{"mcc": mcc, "mnc": mnc, "reserved": reserved} for mcc, mnc, reserved in sib1["plmns"]],
        "scheduling": [{"period": int(period[2:]), "sibs": sibs} for period, sibs in sib1["entries"]],
        "intra": sib1["allowed"],
        "q_rx": sib1["rx"],
        "q_offset": sib1["offset"],
        "window": int(sib1["window"][2:]),
        **{key: sib1[key] for key in ("tac", "cell", "barred", "csg", "csg_identity", "p_max", "band", "tag")},
    }


def cell_of(draw, identity, scheme):
    """Returns a description, and the fields of its SIB1."""
    sib1 = fields(draw)
    mcs = draw.choice([mcs for mcs, size in SIZES.items() if size >= len(texts.text(sib1))])
    return {
        "identity": identity,
        "sfn": draw.randrange(FRAMES),
        "offset": draw.randrange(FRAME),
        "samples": 6 * FRAME,
        **scheme.gains,
        "duration": draw.choice(DURATIONS),
        "resource": draw.choice(RESOURCES),
        "spare": draw.randrange(1024),
        "cfi": 2,
        "start": 0,
        "blocks": 6,
        "mcs": mcs,
        "column": 2,
        "sib1": description_of(sib1),
    }, sib1


def evidence_of(cell, scheme, load):
    """Returns the lines of evidence of the cell that was sent, without false detections."""
    words = [RECEIVER, "transmit", *scheme.words, *(["--load", str(load)] if load else [])]
    sent = subprocess.run(words, input=json.dumps(cell).encode(), stdout=subprocess.PIPE, check=True).stdout
    words = [RECEIVER, "evidence", *scheme.words, "--json"]
    lines = json.loads(subprocess.run(words, input=sent, stdout=subprocess.PIPE, check=True).stdout)
    first = (cell["sfn"] + (cell["offset"] > 0)) % FRAMES
    return [one for one in lines if (one["identity"], one["sfn"]) == (cell["identity"], first)]


# ---- what tshark reads


def packets(path):
    words = ["tshark", "-r", path, "-o", "ip.check_checksum:TRUE", "-T", "pdml"]
    pdml = subprocess.run(words, check=True, stdout=subprocess.PIPE, stderr=subprocess.DEVNULL).stdout
    return list(ElementTree.fromstring(pdml).iter("packet"))


def field(packet, name):
    return next(one.get("show") for one in packet.iter("field") if one.get("name") == name)


def headers_of(packet):
    """Returns identity, carrier's number, frame, subframe and time of a packet."""
    *_, hundreds, rest = map(int, field(packet, "ip.src").split("."))
    return {
        "identity": 100 * hundreds + rest,
        "checksum": field(packet, "ip.checksum.status"),
        "earfcn": int(field(packet, "gsmtap.arfcn")),
        "frame": int(field(packet, "gsmtap.frame_nr")),
        "subframe": int(field(packet, "gsmtap.sub_slot")),
        "time": float(field(packet, "frame.time_epoch")),
    }


def bits(one):
    return int(re.search(r"decimal value (\d+)", one.get("showname"))[1])


def mib_of(packet):
    """Returns the fields of a MIB."""
    spare = [compare.shown(packet, name) for name in ("schedulingInfoSIB1_BR_r13", "systemInfoUnchanged_BR_r15")]
    choice = compare.shown(packet, "partEARFCN_17")
    inner, last = [*compare.under(packet, "earfcn_LSB"), *compare.under(packet, "spare")]
    return {
        "bandwidth": compare.shown(packet, "dl_Bandwidth"),
        "duration": DURATIONS[compare.shown(packet, "phich_Duration")],
        "resource": RESOURCES[compare.shown(packet, "phich_Resource")],
        "period": compare.string_of_bits(packet, "systemFrameNumber"),
        "spare": 32 * spare[0] + 16 * spare[1] + 8 * choice + 2 * bits(inner) + bits(last),
    }


# ---- what differs


def differences(cell, sib1, earfcn, its):
    """Yields how a cell's packets differ from what was sent."""
    mibs = [packet for packet in its if compare.under(packet, "BCCH_BCH_Message_element")]
    blocks = [packet for packet in its if compare.under(packet, "BCCH_DL_SCH_Message_element")]
    if (len(mibs), len(blocks)) != (1, sib1 is not None):
        yield f"{len(mibs)} MIBs, {len(blocks)} blocks of SIB1, in {len(its)} packets"
    for packet in mibs:
        frame = int(field(packet, "gsmtap.frame_nr"))
        wanted = {key: cell[key] for key in ("duration", "resource", "spare")}
        yield from unlike({**wanted, "bandwidth": 0, "period": frame // 4}, mib_of(packet))
        yield from of_headers(cell, earfcn, 0, headers_of(packet))
    for packet in blocks:
        yield from unlike(sib1, compare.fields_of_packet(packet) or {})
        yield from of_headers(cell, earfcn, 5, headers_of(packet))


def unlike(wanted, found):
    for key, value in wanted.items():
        if found.get(key) != value:
            yield f"{key} {value}: tshark reads {found.get(key)}"


def of_headers(cell, earfcn, subframe, found):
    """Yields faults of a packet's headers: its frame has to be a complete one of the recording, its time that frame's."""
    frame = (found["frame"] - cell["sfn"]) % FRAMES
    place = (frame * FRAME - cell["offset"]) / RATE
    if not 0 <= place < cell["samples"] / RATE or subframe and found["frame"] % 2:
        yield f"frame {found['frame']}, sent from {cell['sfn']} on"
    if abs(found["time"] - place - subframe / 1000) > NEAR / RATE:
        yield f"time {found['time']}, and frame {frame} begins at {place}"
    wanted = {"identity": cell["identity"], "earfcn": earfcn if earfcn < 2**14 else 0, "subframe": subframe}
    yield from unlike({**wanted, "checksum": "1"}, found)


@pytest.mark.parametrize("number", range(len(EARFCNS)))
def test_cells_as_they_were_sent(tmp_path, number):
    draw, earfcn, sent, lines = random.Random(4729 + number), EARFCNS[number], [], []
    for i, identity in enumerate(draw.sample(range(504), CELLS // len(EARFCNS))):
        scheme = SCHEMES[i % len(SCHEMES)]
        cell, sib1 = cell_of(draw, identity, scheme)
        lines += evidence_of(cell, scheme, draw.choice((0, draw.randrange(1, 2**32))))
        sent.append((cell, sib1 if scheme.has_sib1 else None))
    pcap.write(tmp_path / "x.pcap", pcap.read("input", json.dumps(lines).encode(), earfcn))
    found = {cell["identity"]: [] for cell, _ in sent}
    for packet in packets(tmp_path / "x.pcap"):
        found[headers_of(packet)["identity"]].append(packet)
    assert [text for cell, sib1 in sent for text in differences(cell, sib1, earfcn, found[cell["identity"]])] == []
