#!/usr/bin/env python3
"""Compares what tshark's dissector lte_rrc.bcch_dl_sch reads in texts of SystemInformationBlockType1 with their
fields, and, where one is named, with what a program printed for them.

    python3 -m lte_reference.sib1_tshark.compare texts.jsonl [PRINTED]

PRINTED has, for each text, a line that begins with `cells` and then the lines that the list of cells has for
system information: `sib1 ..`, `plmn ..` and `si ..`, or `sib1 none ..`.
"""
import json
import re
import struct
import subprocess
import sys
import tempfile
import xml.etree.ElementTree as ElementTree

from .texts import PERIODS, WINDOWS

DISSECTOR = 'uat:user_dlts:"User 0 (DLT=147)","lte_rrc.bcch_dl_sch","0","","0",""'


def octets(bits):
    bits += "0" * (-len(bits) % 8)
    return int(bits, 2).to_bytes(len(bits) // 8, "big")


def write_capture(out, blocks):
    """A capture file in which each packet is a block, of the first user-defined link type."""
    out.write(struct.pack("<IHHiIII", 0xA1B2C3D4, 2, 4, 0, 0, 65535, 147))
    for block in blocks:
        out.write(struct.pack("<IIII", 0, 0, len(block), len(block)) + block)
    out.flush()


def dissected(blocks):
    with tempfile.NamedTemporaryFile(suffix=".pcap") as capture:
        write_capture(capture, blocks)
        command = ["tshark", "-r", capture.name, "-o", DISSECTOR, "-T", "pdml"]
        pdml = subprocess.run(command, check=True, stdout=subprocess.PIPE, stderr=subprocess.DEVNULL).stdout
    return [fields_of_packet(packet) for packet in ElementTree.fromstring(pdml).iter("packet")]


def under(node, name):
    return [field for field in node.iter("field") if field.get("name") == "lte-rrc." + name]


def shown(node, name):
    found = under(node, name)
    assert len(found) <= 1, name
    return int(found[0].get("show")) if found else None


def string_of_bits(node, name):
    found = under(node, name)
    return int(re.search(r"decimal value (\d+)", found[0].get("showname"))[1]) if found else None


def digits_of(node, name):
    found = under(node, name)
    return "".join(digit.get("show") for digit in under(found[0], "MCC_MNC_Digit")) if found else None


def fields_of_packet(packet):
    message = under(packet, "systemInformationBlockType1_element")
    if not message or any("malformed" in (proto.get("name") or "") for proto in packet.iter("proto")):
        return None
    (message,) = message
    tdd = under(message, "tdd_Config_element")
    return {
        "plmns": [
            [digits_of(item, "mcc"), digits_of(item, "mnc"), shown(item, "cellReservedForOperatorUse") == 0]
            for item in under(message, "PLMN_IdentityInfo_element")
        ],
        "tac": string_of_bits(message, "trackingAreaCode"),
        "cell": string_of_bits(message, "cellIdentity"),
        "barred": shown(message, "cellBarred") == 0,
        "allowed": shown(message, "intraFreqReselection") == 0,
        "csg": shown(message, "csg_Indication") == 1,
        "csg_identity": string_of_bits(message, "csg_Identity"),
        "rx": shown(message, "q_RxLevMin"),
        "offset": shown(message, "q_RxLevMinOffset"),
        "p_max": shown(message, "p_Max"),
        "band": shown(message, "freqBandIndicator"),
        "entries": [
            [PERIODS[shown(item, "si_Periodicity")], [int(code.get("show")) for code in under(item, "SIB_Type")]]
            for item in under(message, "SchedulingInfo_element")
        ],
        "tdd": [shown(tdd[0], "subframeAssignment"), shown(tdd[0], "specialSubframePatterns")] if tdd else None,
        "window": WINDOWS[shown(message, "si_WindowLength")],
        "tag": shown(message, "systemInfoValueTag"),
        "extension": bool(under(message, "nonCriticalExtension_element")),
    }


def number(word):
    return None if word == "-" else int(word)


def printed_blocks(path):
    """The lines of each text, as words."""
    blocks = []
    with open(path) as lines:
        for words in (line.split() for line in lines):
            if words and words[0] == "cells":
                blocks.append([])
            elif words and blocks:
                blocks[-1].append(words)
    return blocks


def fields_of_lines(lines):
    """What the lines say: fields, or why there are none."""
    first = next(words for words in lines if words[0] == "sib1")
    if first[1] == "none":
        return " ".join(first[2:])
    of = lambda name, count=1: first[first.index(name) + 1 : first.index(name) + 1 + count]
    tdd = of("tdd")[0]
    return {
        "plmns": [[None if w[1] == "-" else w[1], w[2], w[3] == "reserved"] for w in lines if w[0] == "plmn"],
        "tac": int(of("tac")[0]),
        "cell": int(of("cell")[0]),
        "barred": "barred" in first,
        "allowed": "allowed" in first,
        "csg": of("csg")[0] == "1",
        "csg_identity": number(of("csg", 2)[1]),
        "rx": int(of("rx")[0]),
        "offset": number(of("offset")[0]),
        "p_max": number(of("pmax")[0]),
        "band": int(of("band")[0]),
        "entries": [
            [w[1], [] if w[2] == "-" else [int(code) for code in w[2].split(",")]] for w in lines if w[0] == "si"
        ],
        "tdd": None if tdd == "-" else [int(part) for part in re.findall(r"\d+", tdd)],
        "window": of("window")[0],
        "tag": int(of("tag")[0]),
        "extension": of("extension")[0] == "1",
    }


def differences(who, place, wanted, found):
    if found == wanted:
        return 0
    names = [name for name in wanted if not isinstance(found, dict) or found[name] != wanted[name]]
    for name in names:
        print(
            f"text {place}, {name}: {wanted[name]} was written, {who} reads {found[name] if isinstance(found, dict) else found}"
        )
    return 1


def main():
    with open(sys.argv[1]) as lines:
        rows = [json.loads(line) for line in lines]
    printed = [fields_of_lines(lines) for lines in printed_blocks(sys.argv[2])] if len(sys.argv) > 2 else None
    peer = dissected([octets(row["bits"]) for row in rows])
    assert len(peer) == len(rows)
    whole = [place for place, row in enumerate(rows) if "fields" in row]
    wrong = sum(differences("tshark", place, rows[place]["fields"], peer[place]) for place in whole)
    print(f"tshark: {len(whole) - wrong} of {len(whole)} texts agree")
    if printed:
        assert len(printed) == len(rows)
        wrong = sum(differences("the program", place, rows[place]["fields"], printed[place]) for place in whole)
        print(f"the program: {len(whole) - wrong} of {len(whole)} texts agree")
    for place, row in enumerate(rows):
        if "bad" in row:
            ours = printed[place] if printed else "not asked"
            print(
                f"{row['why']}, bad at {row['bad']}: tshark {'refuses it' if peer[place] is None else 'reads it'}, the program: {ours}"
            )


if __name__ == "__main__":
    main()
