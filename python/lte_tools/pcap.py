#!/usr/bin/python3
"""lte_pcap [FILE] -o OUT.pcap [--earfcn N]

Writes MIB and SIB1 from the output of `lte_cli evidence --json` or `lte_survey --json` as packets for Wireshark and
tshark: GSMTAP over UDP (port 4729), LTE RRC on BCCH-BCH and BCCH-DL-SCH.

Without FILE, standard input is read. `lte_survey --pcap OUT.pcap` does the same. Cells of a survey that are probably
false detections are left out.

A packet comes from 127.0.A.B, where 100 A + B is the PCI. The frame number of a MIB is that of the cell's first complete
frame, or of the next one in the same 40 ms; SIB1 is in subframe 5 of the first frame with an even number, whichever
frame it was read from. The time is that of the frame; if the file's time is not known, the file begins with 1970. The
EARFCN is that of --earfcn, or of the survey's carrier in the band of SIB1; it is 0 if it is not known, or above 16,383,
the largest that GSMTAP holds. Packets have the signal-to-noise ratio, and for a survey in dBm the level.

    lte_cli evidence --json < recording.ci16 | lte_pcap -o packets.pcap
    lte_survey drive.cu8 --rate 2.4e6 --carrier 796e6 --pcap drive.pcap
    tshark -r drive.pcap -V
"""
from __future__ import annotations

import argparse
import pathlib
import struct
from typing import Iterator, NamedTuple, Sequence

from . import bands, foreign, machine, records
from .answers import Evidence
from .arguments import Parser
from .survey_data import Seen, Survey, SurveyCell

PORT = 4729  # of GSMTAP
LTE_RRC = 0x0D  # its type, and of that the channels by their numbers
BCH, DL_SCH = 4, 5
RAW_IP, UDP = 101, 17  # what a packet of the capture begins with, and the protocol in that
MOST_EARFCN = 2**14 - 1
LARGEST_EARFCN = 2**18 - 1  # TS 36.101 section 5.7.3
FRAMES, FRAME, SUBFRAME = 1024, 0.01, 0.001  # a cycle; seconds
SAMPLES = 1_920_000  # a second of a recording
MOST_SECONDS = 2**32 - 60  # since 1970: a capture has no room for more


class Blocks(NamedTuple):
    """The blocks of a cell in a window: its first frame there in seconds since 1970, and that frame's number."""

    time: float
    identity: int
    sfn: int
    mib: str
    sib1_block: str | None
    earfcn: int = 0
    level: float | None = None  # dBm
    ratio: float | None = None  # dB


# ---- what is read


def of_evidence(lines: Sequence[Evidence], earfcn: int | None = None) -> list[Blocks]:
    """Returns the blocks of the lines of `evidence --json`."""
    return [
        Blocks(line.at / SAMPLES, line.identity, line.sfn, line.mib, line.sib1_block, earfcn or 0)
        for line in lines
        if line.mib is not None
    ]


def of_survey(survey: Survey, earfcn: int | None = None) -> list[Blocks]:
    """Returns the blocks of the windows of each cell whose MIB is no false one."""
    found = []
    for cell in survey.cells:
        number = earfcn_of(cell, survey, earfcn)
        for one in cell.seen if cell.has_mib else ():
            if one.mib is not None:
                level = one.level if survey.unit == "dBm" else None
                blocks = one.mib, one.sib1_block
                found.append(Blocks(time_of(one), cell.identity, one.sfn, *blocks, number, level, one.ratio))
    return found


def time_of(one: Seen) -> float:
    """Returns when a window's first frame begins."""
    return one.seconds if one.time is None else one.time


def earfcn_of(cell: SurveyCell, survey: Survey, given: int | None) -> int:
    """Returns the number of a cell's carrier: its own of a scan, else the given one, else by the survey's carrier."""
    if cell.shift is None and given is not None:
        return given
    every = dict(cell.earfcns if cell.shift is not None else bands.earfcns_of(survey.carrier or 0))
    own = every.get(cell.sib1.band) if cell.sib1 else None
    return own if own is not None else next(iter(every.values()), 0)


# ---- what is written


def packets_of(seen: Blocks) -> Iterator[tuple[float, bytes]]:
    """Yields pairs of a time and a packet: the MIB, and SIB1 where it was read."""
    period = int(seen.mib, 16) >> 10 & 255  # systemFrameNumber, behind which ten bits stand (TS 36.331 section 6.2.2)
    frame = seen.sfn if seen.sfn // 4 == period else 4 * period
    yield packet(seen, frame, 0, BCH, bytes.fromhex(seen.mib))
    if seen.sib1_block:
        yield packet(seen, seen.sfn + seen.sfn % 2, 5, DL_SCH, bytes.fromhex(seen.sib1_block))


def packet(seen: Blocks, frame: int, subframe: int, channel: int, block: bytes) -> tuple[float, bytes]:
    """Returns a block with the headers of IPv4, UDP and GSMTAP, and its time."""
    time = seen.time + FRAME * ((frame - seen.sfn) % FRAMES) + SUBFRAME * subframe
    earfcn = seen.earfcn if seen.earfcn <= MOST_EARFCN else 0
    levels = byte_of(seen.level), byte_of(seen.ratio)
    words = (2, 4, LTE_RRC, 0, earfcn, *levels, frame % FRAMES, channel, 0, subframe, 0)
    gsmtap = struct.pack(">BBBBHbbIBBBB", *words) + block
    datagram = struct.pack(">HHHH", PORT, PORT, 8 + len(gsmtap), 0) + gsmtap
    return time, ip_header(seen.identity, len(datagram)) + datagram


def byte_of(decibels: float | None) -> int:
    """Returns a whole number of a signed byte, 0 where none is known."""
    return 0 if decibels is None else max(-128, min(127, round(decibels)))


def ip_header(identity: int, size: int) -> bytes:
    ends = bytes((127, 0, *divmod(identity, 100))), bytes((127, 0, 0, 1))
    header = struct.pack(">BBHHHBBH4s4s", 0x45, 0, 20 + size, 0, 0, 64, UDP, 0, *ends)
    total = sum(struct.unpack(">10H", header))
    return header[:10] + struct.pack(">H", -total % 0xFFFF) + header[12:]


def capture_of(every: Sequence[Blocks]) -> bytes:
    """Returns the capture of blocks, in the order of time; refuses times before 1970 or after 2106."""
    parts = [struct.pack("<IHHiIII", 0xA1B2C3D4, 2, 4, 0, 0, 65_535, RAW_IP)]
    for time, data in sorted(pair for seen in every for pair in packets_of(seen)):
        if not 0 <= time < MOST_SECONDS:
            raise machine.Refused(f"a time of {time:.0f} s since 1970, for which a capture has no room: --start")
        second, part = divmod(round(1e6 * time), 1_000_000)
        parts.append(struct.pack("<IIII", second, part, len(data), len(data)) + data)
    return b"".join(parts)


# ---- the tool


def write(out: pathlib.Path, every: Sequence[Blocks]) -> None:
    """Writes the capture of blocks."""
    if not every:
        machine.note(f"{out}: no cell, so no packet is in it")
    machine.write(out, capture_of(every))


def read(name: str, data: bytes, earfcn: int | None) -> list[Blocks]:
    """Returns the blocks of what `lte_cli evidence --json` or `lte_survey --json` wrote."""
    found = foreign.parsed(data, name)
    if isinstance(found, dict):
        return of_survey(Survey.from_json(found, name), earfcn)
    foreign.check(found, "evidence", name)
    return of_evidence(records.typed(tuple[Evidence, ...], found), earfcn)


def earfcn(text: str) -> int:
    """Returns the number of a carrier."""
    value = int(text)
    if not 0 <= value <= LARGEST_EARFCN:
        raise argparse.ArgumentTypeError(f"{text} is not between 0 and {LARGEST_EARFCN}")
    return value


def parser() -> argparse.ArgumentParser:
    """Returns the parser of the arguments."""
    parser = Parser(__doc__, brief=True)
    parser.add_argument("file", metavar="FILE", nargs="?", type=pathlib.Path, help="JSON (default: standard input)")
    parser.add_argument("-o", dest="out", metavar="OUT", type=pathlib.Path, required=True, help="the packets (.pcap)")
    parser.add_argument("--earfcn", type=earfcn, metavar="N", help="the carrier's EARFCN")
    return parser


def command() -> None:
    args = parser().parse_args()
    machine.check_place(args.out, [args.file])
    data = foreign.read(args.file, foreign.MOST_JSON) if args.file else foreign.read_input(foreign.MOST_JSON)
    write(args.out, read(str(args.file or "standard input"), data, args.earfcn))


def main() -> None:
    machine.run(command)


if __name__ == "__main__":
    main()
