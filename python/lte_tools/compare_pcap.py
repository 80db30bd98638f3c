"""Lists of cells from captures: MIB and SIB1 as a phone's or this project's packets carry them, read by tshark (Debian).

GSMTAP states the carrier's number and the frame. The physical-layer cell identity comes from a comment such as `PCI: 271`,
or from the address 127.0.A.B that lte_pcap writes for 100 A + B. Without either, a cell is known by its SIB1 alone.
"""
from __future__ import annotations

import dataclasses
import json
import re
import shutil
import subprocess
import tempfile
from typing import Any, Iterator

from . import bands, compare_lists
from .compare_lists import RESOURCES, WIDTHS, BadValue, CellList, Frame, Listed
from .machine import Refused

MAGICS = (b"\xa1\xb2\xc3\xd4", b"\xd4\xc3\xb2\xa1", b"\xa1\xb2\x3c\x4d", b"\x4d\x3c\xb2\xa1", b"\x0a\x0d\x0d\x0a")
SECONDS = 300  # that tshark may take
MOST_OUTPUT = 512_000_000  # bytes of its answer
# link types that a user assigns: Wireshark's DLT_USER0 to 15, of which a capture of LTE RRC has one
CHANNELS = ("lte_rrc.bcch_bch", "lte_rrc.bcch_dl_sch")
BEGIN_1970 = 1e8  # seconds since 1970 below which a packet's time is that of a recording
PREFERENCES = 'uat:user_dlts:"User {number} (DLT={link})","{channel}","0","","0",""'


def is_capture(data: bytes) -> bool:
    """Returns whether bytes begin as a capture does."""
    return data[:4] in MAGICS


def capture_list(data: bytes, name: str) -> CellList:
    """Returns the list of a capture."""
    cells: list[Listed] = []
    last: dict[object, Listed] = {}
    for number, layers in enumerate(packets_of(data, name), 1):
        try:
            found = listed_of(layers, f"packet {number}")
        except BadValue as fault:
            raise Refused(f"{name}: packet {number}: {fault}") from None
        if found is not None and (found.identity is not None or found.cell is not None):
            key = found.identity, found.frequency
            cells.append(with_cell_of(found, last.get(key)))
            last[key] = cells[-1]
    return CellList(name, "pcap", compare_lists.measured(compare_lists.limited(cells, name, "pcap")), None, True)


def with_cell_of(found: Listed, before: Listed | None) -> Listed:
    """Returns a cell of which a MIB was read, with the cell identity that its last SIB1 had."""
    return dataclasses.replace(found, cell=before.cell) if before and found.cell is None else found


def packets_of(data: bytes, name: str) -> Iterator[dict[str, Any]]:
    """Yields the layers of each packet that tshark reads in a capture."""
    if shutil.which("tshark") is None:
        raise Refused(f"{name}: a capture, which tshark reads (Debian: tshark), and it is not installed")
    with tempfile.NamedTemporaryFile(suffix=".pcap") as capture, tempfile.TemporaryFile() as out:
        capture.write(data)
        capture.flush()
        words = ["tshark", "-n", "-r", capture.name, "-T", "json", "--no-duplicate-keys", *link_words(data)]
        try:
            done = subprocess.run(words, stdout=out, stderr=subprocess.PIPE, check=False, timeout=SECONDS)
        except subprocess.TimeoutExpired:
            raise Refused(f"{name}: tshark has not read it within {SECONDS} s") from None
        cause = done.stderr.decode(errors="replace").replace(capture.name, "it")
        if "cut short" in cause or "damaged" in cause or done.returncode:
            raise Refused(f"{name}: tshark: {cause_of(cause) or f'status {done.returncode}'}")
        if out.tell() > MOST_OUTPUT:
            raise Refused(f"{name}: more than {MOST_OUTPUT:,} bytes from tshark: a shorter capture is needed")
        out.seek(0)
        try:
            found = json.load(out)
        except (ValueError, RecursionError):
            raise Refused(f"{name}: tshark wrote no JSON") from None
    for packet in found:
        yield packet["_source"]["layers"]


def cause_of(text: str) -> str:
    """Returns the line in which tshark says why it stopped."""
    lines = [line.strip() for line in text.splitlines() if line.strip() and "Running as user" not in line]
    return " ".join(line.removeprefix("tshark: ") for line in lines)[:200]


def link_words(data: bytes) -> list[str]:
    """Returns the arguments for a capture of one of the user link types (147 to 162): the packets are BCCH-DL-SCH."""
    order = "little" if data[:4] in (MAGICS[1], MAGICS[3]) else "big"
    link = int.from_bytes(data[20:24], order) if data[:4] in MAGICS[:4] else 0  # type: ignore[arg-type]
    if not 147 <= link <= 162:
        return []
    return ["-o", PREFERENCES.format(number=link - 147, link=link, channel=CHANNELS[1])]


# ---- a packet


def every(value: Any, key: str) -> Iterator[Any]:
    """Yields the values of a key at any depth."""
    if isinstance(value, dict):
        for name, inner in value.items():
            if name == key:
                yield from inner if isinstance(inner, list) else [inner]
            yield from every(inner, key)
    elif isinstance(value, list):
        for inner in value:
            yield from every(inner, key)


def number_in(layers: Any, key: str) -> int | None:
    """Returns the whole number of the first field with this name, or None."""
    text = next(every(layers, key), None)
    return int(text) if isinstance(text, str) and re.fullmatch(r"[0-9]{1,9}", text) else None


def bits_in(layers: Any, key: str, count: int) -> int | None:
    """Returns the number of a string of so many bits, which tshark writes as octets: 1a:2d:00:10."""
    text = next(every(layers, key), None)
    if not isinstance(text, str) or not re.fullmatch(r"[0-9a-f]{2}(:[0-9a-f]{2}){0,7}", text):
        return None
    octets = text.split(":")
    return int("".join(octets), 16) >> (8 * len(octets) - count)


def listed_of(layers: dict[str, Any], place: str) -> Listed | None:
    """Returns the cell of a packet with MIB or SIB1, or None."""
    header = layers.get("gsmtap", {})
    comment = " ".join(str(one) for one in every(layers, "frame.comment"))
    earfcn = number_in(header, "gsmtap.arfcn") or in_comment(comment, "earfcn", 262_143)
    frequency = bands.frequency_of(earfcn) if earfcn else None
    identity = in_comment(comment, "pci", 503)
    own = own_identity(layers)
    common = Listed((place,), own if identity is None else identity, frequency)
    master = next(every(layers, "lte-rrc.BCCH_BCH_Message_element"), None)
    system = next(every(layers, "lte-rrc.systemInformationBlockType1_element"), None)
    if master is not None:
        return with_mib(common, master, header, seconds_in(layers) if own is not None else None)
    return with_sib1(common, system) if system is not None else None


def in_comment(comment: str, name: str, most: int) -> int | None:
    """Returns a number that a comment names."""
    found = re.search(rf"\b{name}\b[\s:=]*([0-9]{{1,9}})", comment, re.I)
    return compare_lists.whole(found[1], most, name) if found else None


def own_identity(layers: dict[str, Any]) -> int | None:
    """Returns the identity that the address of a packet of lte_pcap has."""
    text = next(every(layers.get("ip"), "ip.src"), "")
    found = re.fullmatch(r"127\.0\.([0-5])\.([0-9]{1,2})", str(text))
    identity = 100 * int(found[1]) + int(found[2]) if found else 504
    is_own = number_in(layers, "udp.srcport") == 4729 and identity <= 503
    return identity if is_own and text != "127.0.0.1" else None


def seconds_in(layers: dict[str, Any]) -> float | None:
    """Returns the second of the recording at which a packet of lte_pcap begins, None if it has a date."""
    text = next(every(layers, "frame.time_epoch"), "")
    seconds = float(text) if re.fullmatch(r"[0-9]{1,12}(\.[0-9]{1,9})?", str(text)) else BEGIN_1970
    return seconds if seconds < BEGIN_1970 else None


def with_mib(common: Listed, master: Any, header: Any, seconds: float | None) -> Listed:
    """Returns a cell with the fields of its MIB; a frame number counts only with the second at which it was sent."""
    width, duration = number_in(master, "lte-rrc.dl_Bandwidth"), number_in(master, "lte-rrc.phich_Duration")
    resource = number_in(master, "lte-rrc.phich_Resource")
    if width is None or width >= len(WIDTHS) or duration is None or resource is None or resource >= len(RESOURCES):
        raise BadValue("a MIB whose fields tshark does not read")
    number = number_in(header, "gsmtap.frame_nr")
    frames = () if number is None or seconds is None else (Frame(number % compare_lists.FRAMES, seconds),)
    return dataclasses.replace(
        common,
        blocks=list(WIDTHS.values())[width],
        duration=(compare_lists.NORMAL, compare_lists.EXTENDED)[min(duration, 1)],
        resource=list(RESOURCES)[resource],
        frames=frames,
    )


def with_sib1(common: Listed, system: Any) -> Listed:
    """Returns a cell with the fields of its SIB1."""
    return dataclasses.replace(
        common,
        plmns=networks_in(system),
        tac=bits_in(system, "lte-rrc.trackingAreaCode", 16),
        cell=bits_in(system, "lte-rrc.cellIdentity", 28),
        band=number_in(system, "lte-rrc.freqBandIndicator"),
    )


def networks_in(system: Any) -> tuple[str, ...]:
    """Returns the networks of SIB1; one without a country code has that of the one before."""
    found, country = [], ""
    for item in every(system, "lte-rrc.PLMN_IdentityInfo_element"):
        mcc = "".join(every(list(every(item, "lte-rrc.mcc_tree")), "lte-rrc.MCC_MNC_Digit"))
        mnc = "".join(every(list(every(item, "lte-rrc.mnc_tree")), "lte-rrc.MCC_MNC_Digit"))
        country = mcc or country
        if re.fullmatch(r"[0-9]{3}", country) and re.fullmatch(r"[0-9]{2,3}", mnc):
            found.append(f"{country}-{mnc}")
    return tuple(found)
