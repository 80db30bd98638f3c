"""A stand-in for another receiver: five cells, our survey of them, ten faults, and the list in each form that
docs/COMPARE.md names. Texts of other programs are written after their documentation."""
import copy
import dataclasses
import json

from lte_reference import cell as reference_cell
from lte_tools import pcap
from lte_tools.survey_data import Survey
from tests.conftest import CELL

RATE = 1_920_000
CARRIER = 796e6
EARFCN = 6200
WIDTHS = {6: 1.4, 15: 3, 25: 5, 50: 10, 75: 15, 100: 20}
RESOURCES = ("oneSixth", "half", "one", "two")
# identity, resource blocks, ports, duration, resource, tracking area, cell identity, first sample, frame number, dBFS
ROWS = (
    (271, 50, 2, "normal", "one", 0x1234, 70_001 * 256 + 1, 14_200, 512, -52.0),
    (33, 50, 2, "normal", "one", 0x1234, 70_001 * 256 + 2, 14_200, 512, -55.0),
    (64, 25, 1, "normal", "half", 0x2BCD, 70_055 * 256 + 1, 2_020, 77, -61.5),
    (300, 100, 4, "extended", "two", 0x0102, 70_060 * 256 + 3, 9_300, 1020, -66.0),
    (9, 6, 1, "normal", "oneSixth", 0x1234, 70_070 * 256 + 0, 19_100, 3, -74.0),
)
KEYS = ("identity", "blocks", "ports", "duration", "resource", "tac", "cell", "at", "sfn", "level")


def truth():
    """Returns the cells as they are."""
    return [{**dict(zip(KEYS, row)), "plmn": "262-02", "band": 20, "frequency": CARRIER} for row in ROWS]


def survey_of(cells, stored):
    """Returns our survey of cells; `stored` is the survey of scripts/examples, whose further fields it has."""
    first = Survey.from_json(stored)
    (line,) = first.cells
    found = []
    for one in cells:
        mcc, mnc = one["plmn"].split("-")
        network = dataclasses.replace(line.sib1.plmns[0], mcc=mcc, mnc=mnc)
        sib1 = dataclasses.replace(line.sib1, plmns=(network,), tac=one["tac"], cell=one["cell"], band=one["band"])
        seconds = round(one["at"] / RATE, 4)
        (mib, block), keys = blocks_of(one), {"at": one["at"], "seconds": seconds, "sfn": one["sfn"]}
        seen = dataclasses.replace(line.seen[0], **keys, level=one["level"], mib=mib, sib1_block=block)
        found.append(
            dataclasses.replace(
                line,
                identity=one["identity"],
                rule={1: "one-port", 2: "two-ports", 4: "four-ports"}[one["ports"]],
                first=seconds,
                last=seconds,
                ports=one["ports"],
                bandwidth=f"n{one['blocks']}",
                duration=one["duration"],
                resource=one["resource"],
                sib1=sib1,
                level=one["level"],
                seen=(seen,),
            )
        )
    return dataclasses.replace(first, carrier=CARRIER, cells=tuple(found), file="drive.cu8")


def blocks_of(one):
    """Returns MIB and SIB1 as hexadecimal digits (TS 36.331 section 6.2.2)."""
    width, ng = list(WIDTHS).index(one["blocks"]), RESOURCES.index(one["resource"])
    bits = f"{width:03b}{int(one['duration'] == 'extended')}{ng:02b}{one['sfn'] // 4:08b}{0:010b}"
    mcc, mnc = one["plmn"].split("-")
    fields = {"plmns": [{"mcc": mcc, "mnc": mnc, "reserved": False}], "tac": one["tac"], "cell": one["cell"]}
    text = "".join(map(str, reference_cell.text({**CELL["sib1"], **fields, "band": one["band"]})))
    text += "0" * (-len(text) % 8)
    return f"{int(bits, 2):06x}", f"{int(text, 2):0{len(text) // 4}x}"


# ---- the ten faults: each changes the list, and states the verdict that it has to get


def changed(number, **fields):
    """Returns a fault of the cell with this number."""

    def plant(cells):
        cells[number].update({key: of(cells[number]) for key, of in fields.items()})

    return plant


def invented(cells):
    cells.append({**cells[0], "identity": 444, "cell": 99, "at": 5_555, "sfn": 700, "tac": 9, "level": -80.0})


FAULTS = {
    "sfn by 4": (changed(1, sfn=lambda one: one["sfn"] + 4), ("differ", "sfn", 33)),
    "sfn by 256": (changed(2, sfn=lambda one: one["sfn"] + 256), ("differ", "sfn", 64)),
    "identity by 168": (changed(2, identity=lambda one: one["identity"] + 168), ("differ", "identity", 64)),
    "N2": (changed(3, identity=lambda one: one["identity"] + 2), ("differ", "identity", 300)),
    "width": (changed(0, blocks=lambda one: one["blocks"] // 2), ("differ", "width", 271)),
    "ports": (changed(1, ports=lambda one: 1), ("differ", "ports", 33)),
    "left out": (lambda cells: cells.pop(3), ("ours-only", None, 300)),
    "invented": (invented, ("theirs-only", None, 444)),
    "twice": (lambda cells: cells.append(dict(cells[2])), ("two-lines", None, 64)),
    "tac": (changed(0, tac=lambda one: one["tac"] % 256 * 256 + one["tac"] // 256), ("differ", "tac", 271)),
    "level": (changed(2, level=lambda one: one["level"] + 3), ("differ", "level", 64)),
}
NEEDS = {"sfn by 4": "sfn", "sfn by 256": "sfn", "width": "blocks", "ports": "ports", "tac": "tac", "level": "level"}


def planted(fault):
    """Returns the stand-in's cells with a fault, or without one."""
    cells = copy.deepcopy(truth())
    if fault:
        FAULTS[fault][0](cells)
    return cells


def shifted(cells, level=0.0, samples=0, frames=0):
    """Returns the cells with the three constants of a list."""
    found = []
    for one in cells:
        found.append({**one, "level": one["level"] + level, "at": one["at"] + samples})
        found[-1]["sfn"] = (one["sfn"] + frames) % 1024
    return found


# ---- the forms: each has a writer, the fields that it carries, and whether a cell may be there twice


def csv_text(cells):
    head = "seconds;PCI;DL EARFCN;RSRP (dBm);MCC;MNC;TAC;ECI;SFN;PRB;Antenna Ports;PHICH Duration;Ng;Frame start"
    rows = []
    for one in cells:
        mcc, mnc = one["plmn"].split("-")
        at = one["at"] / RATE
        row = (at, one["identity"], EARFCN, one["level"], mcc, int(mnc), f"0x{one['tac']:04X}", one["cell"], one["sfn"])
        rows.append((*row, one["blocks"], one["ports"], one["duration"], one["resource"], at % 0.01))
    return "\n".join([head, *(";".join(map(str, row)) for row in rows)]).encode()


def scanner_text(cells):
    """A scanner's table without times: PCI as N1 and N2, the cell as eNodeB and sector, the carrier in MHz."""
    head = "N1,N2,Frequency (MHz),RSRP,PLMN,TAC,eNodeB ID,Sector ID,Bandwidth (MHz)"
    rows = []
    for one in cells:
        width, site = WIDTHS[one["blocks"]], divmod(one["cell"], 256)
        row = (*divmod(one["identity"], 3), 796, one["level"], one["plmn"].replace("-", ""), one["tac"], *site, width)
        rows.append(",".join(map(str, row)))
    return "\ufeff" + "\r\n".join([head, *rows])


def srsran_text(cells):
    lines = [
        f"Found CELL 796.0 MHz, EARFCN={EARFCN}, PHYID={one['identity']}, {one['blocks']} PRB, {one['ports']} ports, "
        f"PSS power={one['level'] + 21:.1f} dBm"
        for one in cells
    ]
    return "Opening RF device...\n" + "\n".join([*lines, "Bye"])


def srsue_text(cells):
    lines = []
    for one in cells:
        mcc, mnc = one["plmn"].split("-")
        lines += [
            f"Found Cell:  Mode=FDD, PCI={one['identity']}, PRB={one['blocks']}, Ports={one['ports']}, CP=Normal, "
            "CFO=-0.3 KHz",
            f"SIB1 received, CellID={one['cell']}, TAC={one['tac']}",
            f"PLMN Id: MCC {mcc} MNC {mnc}",
        ]
    return "\n".join(lines)


def cell_scanner_text(cells):
    lines = [
        "Detected the following cells:",
        "A: #antenna ports C: CP type ; P: PHICH duration ; PR: PHICH resource type",
    ]
    lines.append("CID A      fc   foff RXPWR C nRB P  PR CrystalCorrectionFactor")
    for one in cells:
        ng = {"oneSixth": "1/6", "half": "1/2"}.get(one["resource"], one["resource"])
        fields = (one["identity"], one["ports"], "796M", "13.2k", f"{one['level']:.1f}", "N", one["blocks"])
        lines.append(" ".join(map(str, (*fields, one["duration"][0].upper(), ng, "1.0000165844219"))))
    return "\n".join(lines)


def openlte_text(cells):
    lines = []
    for one in cells:
        mcc, mnc = one["plmn"].split("-")
        lines.append(
            f"info channel_found_begin freq=796000000 dl_earfcn={EARFCN} freq_offset=-25.1 "
            f"phys_cell_id={one['identity']} sfn={one['sfn']} n_ant={one['ports']} "
            f"phich_dur={one['duration'].title()} phich_res={ {'oneSixth': '1/6', 'half': '1/2', 'one': 1, 'two': 2}[one['resource']] } "
            f"bandwidth={WIDTHS[one['blocks']]}"
        )
        lines.append(
            f"info sib1_decoded freq=796000000 phys_cell_id={one['identity']} mcc[0]={mcc} mnc[0]={mnc} "
            f"tac={one['tac']} cell_id={one['cell']} band={one['band']}"
        )
    return "\n".join(["ok", *lines, "info scan_done"])


def matlab_text(cells):
    names = {"oneSixth": "Sixth", "half": "Half", "one": "One", "two": "Two"}
    found = [
        {
            "NCellID": one["identity"],
            "NDLRB": one["blocks"],
            "CellRefP": one["ports"],
            "CyclicPrefix": "Normal",
            "PHICHDuration": one["duration"].title(),
            "Ng": names[one["resource"]],
            "NFrame": one["sfn"],
            "DuplexMode": "FDD",
        }
        for one in cells
    ]
    return json.dumps(found)


def search_text(cells):
    lines = [f"cells {len(cells)}"]
    for one in cells:
        mcc, mnc = one["plmn"].split("-")
        lines += [
            f"cell {one['identity']} at {one['at']} sfn {one['sfn']} ports {one['ports']} n{one['blocks']} "
            f"phich {one['duration']} {one['resource']} br 0 spare 0",
            f"sib1 tac {one['tac']} cell {one['cell']} open allowed csg 0 - rx -64 offset - pmax 23 band {one['band']} "
            "window ms20 tag 3 tdd - extension 0",
            f"plmn {mcc} {mnc} free",
        ]
    return "\n".join(lines) + "\n"


def capture(cells):
    found = [pcap.Blocks(one["at"] / RATE, one["identity"], one["sfn"], *blocks_of(one), EARFCN) for one in cells]
    return pcap.capture_of(found)


MASTER = {"identity", "blocks", "ports", "sfn"}
SYSTEM = {"tac", "cell", "plmn", "band"}
# the form's name, its writer, the fields that it carries, and whether a second line of a cell is another measurement of it
FORMS = {
    "csv": ("csv", csv_text, MASTER | SYSTEM | {"level", "start"}, True),
    "scanner": ("csv", scanner_text, {"identity", "blocks", "level"} | SYSTEM, False),
    "cell_search": ("srsran", srsran_text, {"identity", "blocks", "ports"}, False),
    "srsue": ("srsran", srsue_text, {"identity", "blocks", "ports", "tac", "cell", "plmn"}, True),
    "CellSearch": ("cell-scanner", cell_scanner_text, {"identity", "blocks", "ports", "level"}, False),
    "openlte": ("openlte", openlte_text, MASTER | SYSTEM, False),
    "matlab": ("matlab", matlab_text, MASTER, False),
    "search": ("ours", search_text, MASTER | SYSTEM | {"start"}, True),
    "pcap": ("pcap", capture, {"identity", "blocks", "sfn"} | SYSTEM, True),
}


def carries(name, fault):
    """Returns whether a form can carry a fault: it has the field, and a second line of a cell is no further measurement."""
    _, _, fields, is_measured = FORMS[name]
    return NEEDS.get(fault, "identity") in fields and not (fault == "twice" and is_measured)
