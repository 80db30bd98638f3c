"""lte_compare: faults of a stand-in receiver (stand_in.py) in each form, what is no difference, our own forms, and hostile
input."""
import csv
import dataclasses
import io
import json
import os
import random
import re
import shutil
import struct
import subprocess

import numpy as np
import pytest

from lte_tools import compare_bundle, compare_forms, compare_lists, compare_verdicts, kml, places, radio
from lte_tools import survey_page, survey_table, survey_windows
from lte_tools.survey_data import Detected, Scan, Survey, SurveyIdentity, Track
from tests import stand_in
from tests.conftest import EXAMPLES, is_one_line, needs
from tests.stand_in import EARFCN, FAULTS, FORMS

CASES = [(name, fault) for name in FORMS for fault in FAULTS if stand_in.carries(name, fault)]


def data_of(name, cells):
    """The bytes of a list."""
    found = FORMS[name][1](cells)
    return found if isinstance(found, bytes) else found.encode()


@pytest.fixture
def ours(survey_json):
    """Our list of the stand-in's cells."""
    return compare_lists.of_survey(stand_in.survey_of(stand_in.truth(), survey_json))


def compared(ours, data, **more):
    return compare_verdicts.comparison_of(ours, compare_forms.read(data, "theirs", None, {}), **more)


def differences(found):
    return [(one.verdict, one.field, one.identity) for one in found.verdicts if one.verdict != "agree"]


def skip_without(name):
    if name == "pcap" and shutil.which("tshark") is None:
        pytest.skip("not installed: tshark")


# ---- faults


@pytest.mark.parametrize("name", FORMS)
def test_lists_agree(ours, name):
    skip_without(name)
    data = data_of(name, stand_in.truth())
    assert compare_forms.read(data, "x", None, {}).form == FORMS[name][0]
    found = compared(ours, data)
    assert differences(found) == [] and found.agrees and len(found.verdicts) == 5
    missing = {"identity", "blocks", "ports", "sfn", "tac", "cell", "plmn", "band", "start", "level"} - FORMS[name][2]
    names = {"blocks": "width"}
    carried = {names.get(one, one) for one in FORMS[name][2]} - ({"band"} if "band" not in found.fields else set())
    assert carried <= set(found.fields) and not {names.get(one, one) for one in missing - {"level"}} & set(found.fields)


@pytest.mark.parametrize("name, fault", CASES)
def test_fault_is_told_alone(ours, name, fault):
    skip_without(name)
    found = compared(ours, data_of(name, stand_in.planted(fault)))
    assert differences(found) == [FAULTS[fault][1]]
    assert not found.agrees


def test_each_fault_is_carried_by_some_form():
    assert {fault for _, fault in CASES} == set(FAULTS)


# ---- what is no difference


@pytest.mark.parametrize(
    "name, more",
    [
        ("csv", {"level": 31.25}),
        ("csv", {"samples": 1_111}),
        ("csv", {"frames": 300}),
        ("csv", {"level": -47.5, "samples": -2_000, "frames": -7}),
        ("search", {"samples": 5_000, "frames": 1}),
        ("openlte", {"frames": 512}),
        ("matlab", {"frames": 9}),
        ("CellSearch", {"level": 12.5}),
    ],
)
def test_constant_of_the_whole_list_is_no_difference(ours, name, more):
    found = compared(ours, data_of(name, stand_in.shifted(stand_in.truth(), **more)))
    assert differences(found) == []
    assert found.constants.level == (more.get("level", 0) if "level" in FORMS[name][2] else None)
    shift, frames = more.get("samples", 0) / stand_in.RATE, more.get("frames", 0)
    if "start" in FORMS[name][2]:
        assert found.constants.start == pytest.approx((shift + 0.005) % 0.01 - 0.005, abs=1e-9)
    if "sfn" in FORMS[name][2]:
        assert found.constants.sfn == (frames + 512) % 1024 - 512
    assert len(found.notes) == len(more)


@pytest.mark.parametrize("fault", FAULTS)
def test_fault_is_told_besides_constants(ours, fault):
    if not stand_in.carries("csv", fault):
        pytest.skip("a second line is another measurement")
    cells = stand_in.shifted(stand_in.planted(fault), level=20.0, samples=777, frames=100)
    assert differences(compared(ours, data_of("csv", cells))) == [FAULTS[fault][1]]


def test_start_beyond_the_prefix_differs(ours):
    """9 samples at 1.92 MHz are 4.69 us, the cyclic prefix; 12 are beyond it."""
    for samples, expected in ((9, []), (12, [("differ", "start", 64)]), (-12, [("differ", "start", 64)])):
        cells = stand_in.truth()
        cells[2]["at"] += samples
        assert differences(compared(ours, data_of("search", cells))) == expected


def test_spellings_are_no_difference(ours):
    rows = ["PCI,Channel,RB,Ng,PLMN,Cell Identity,TAC,CP", "271,6200,n50,1,26202,70001-1,4660.0,Normal"]
    rows += ["33,6200,10 MHz,one,262-02,0x1117102,0x1234,N", "64,6200,25 PRB,1/2,262-2,17934081,11213,normal"]
    rows[3] = rows[3].replace("262-2", "262-02")
    found = compared(ours, "\n".join(rows).encode(), fields=("identity", "carrier", "plmn", "cell", "tac", "prefix"))
    assert [one for one in differences(found) if one[0] != "ours-only"] == []
    assert set(found.fields) == {"identity", "carrier", "plmn", "cell", "tac", "prefix"}


def test_bands_that_overlap_are_equal(survey_json):
    """2137.5 MHz are EARFCN 275 of band 1, 4150 + 275 of band 10 and 66436 + 275 of band 66 (TS 36.101 table 5.7.3-1)."""
    survey = dataclasses.replace(stand_in.survey_of(stand_in.truth(), survey_json), carrier=2137.5e6)
    cells = tuple(dataclasses.replace(one, sib1=dataclasses.replace(one.sib1, band=1)) for one in survey.cells)
    ours = compare_lists.of_survey(dataclasses.replace(survey, cells=cells))
    for earfcn, band, expected in ((275, 1, []), (4425, 10, []), (66_711, 66, []), (275, 3, [("differ", "band", 271)])):
        found = compared(ours, f"pci,earfcn,band\n271,{earfcn},{band}\n".encode())
        assert [one for one in differences(found) if one[0] != "ours-only"] == expected


def test_other_carrier_is_not_in_the_recording(ours):
    found = compared(
        ours, data_of("cell_search", stand_in.truth()) + b"\nFound CELL 806.0 MHz, PHYID=5, 50 PRB, 2 ports\n"
    )
    assert differences(found) == [("not-in-recording", None, 5)] and found.agrees


def test_levels_by_time_have_a_spread(survey_json):
    """Three windows of each cell: theirs are 10 dB more, and the second of PCI 64 is 1 dB more than that."""
    survey = stand_in.survey_of(stand_in.truth(), survey_json)
    levels = (0.0, -7.0, 4.0)
    cells = []
    for one in survey.cells:
        (seen,) = one.seen
        each = [
            dataclasses.replace(seen, seconds=seen.seconds + 0.5 * i, at=seen.at + 960_000 * i, level=seen.level + more)
            for i, more in enumerate(levels)
        ]
        cells.append(dataclasses.replace(one, seen=tuple(each), windows=3))
    ours = compare_lists.of_survey(dataclasses.replace(survey, cells=tuple(cells)))
    rows = ["seconds,pci,rsrp"]
    for i, more in enumerate(levels):
        rows += [
            f"{0.5 * i},{one['identity']},{one['level'] + more + 10 + (one['identity'] == 64 and i == 1)}"
            for one in stand_in.truth()
        ]
    found = compared(ours, "\n".join(rows).encode())
    assert differences(found) == [] and found.constants.level == 10
    (spread,) = [one for one in found.levels if one.identity == 64]
    assert (spread.count, spread.median, spread.least, spread.greatest) == (3, 0, 0, 1)


def test_eight_bits_of_a_frame_number(ours):
    rows = ["seconds,pci,mib sfn"]
    rows += [f"{one['at'] / stand_in.RATE},{one['identity']},{one['sfn'] // 4}" for one in stand_in.truth()]
    assert differences(compared(ours, "\n".join(rows).encode())) == []
    rows[3] = rows[3][: rows[3].rindex(",")] + ",20"  # 77 // 4 is 19
    found = compared(ours, "\n".join(rows).encode())
    assert differences(found) == [("differ", "sfn", 64)] and "compared modulo 4" in " ".join(found.notes)


@needs("tshark", "editcap")
def test_identity_of_a_capture_is_in_a_comment_or_not_known(ours, tmp_path):
    """A phone's packets have another address than those of lte_pcap."""
    data = stand_in.capture(stand_in.truth())
    for one in stand_in.truth():
        data = data.replace(bytes((127, 0, *divmod(one["identity"], 100))), bytes((10, 0, 0, 2)))
    found = compared(ours, data)
    assert differences(found) == [] and "identity" not in found.fields and {"tac", "cell", "band"} <= set(found.fields)
    (tmp_path / "a.pcap").write_bytes(data)
    words = ["-a", "7:PCI: 272 of the serving cell"]  # the first packet with a SIB1 of PCI 271
    subprocess.run(["editcap", *words, tmp_path / "a.pcap", tmp_path / "b.pcapng"], check=True)
    found = compared(ours, (tmp_path / "b.pcapng").read_bytes())
    assert differences(found) == [("differ", "identity", 271)]


@needs("tshark")
def test_capture_of_a_user_link_type_has_sib1(ours):
    """Packets of DLT_USER0 (147) that are SIB1 alone."""
    blocks = [bytes.fromhex(stand_in.blocks_of(one)[1]) for one in stand_in.truth()]
    packets = [struct.pack("<IIII", 0, 0, len(block), len(block)) + block for block in blocks]
    found = compared(ours, b"".join([struct.pack("<IHHiIII", 0xA1B2C3D4, 2, 4, 0, 0, 65_535, 147), *packets]))
    assert [one.verdict for one in found.verdicts] == ["agree"] * 5
    assert {"plmn", "tac", "cell", "band"} == set(found.fields) - {"level"}


# ---- our own forms


@pytest.fixture
def placed(survey_json):
    """Our survey of the stand-in's cells, with places."""
    survey = stand_in.survey_of(stand_in.truth(), survey_json)
    cells = tuple(
        dataclasses.replace(one, seen=tuple(dataclasses.replace(each, place=(13.4, 52.5)) for each in one.seen))
        for one in survey.cells
    )
    return dataclasses.replace(survey, cells=cells, track=Track("", "", 1, ((0.0, 13.4, 52.5),)))


OWN = {
    "json": lambda survey: json.dumps(survey.to_json()).encode(),
    "csv": lambda survey: survey_table.csv_of(survey).encode(),
    "table": lambda survey: "\n".join(survey_table.table_of(survey)).encode(),
    "csv-windows": lambda survey: survey_windows.csv_of(survey).encode(),
    "geojson": places.geojson_text,
    "kml": kml.of_survey,
    "page": survey_page.page_of,
    "pcap": lambda survey: stand_in.capture(stand_in.truth()),
}


@pytest.mark.parametrize("name", OWN)
def test_survey_agrees_with_each_of_its_forms(placed, name):
    skip_without(name)
    found = compared(compare_lists.of_survey(placed), OWN[name](placed))
    assert found.form in ("ours", "pcap")
    assert [one.verdict for one in found.verdicts] == ["agree"] * 5
    assert {"identity", "tac", "cell", "plmn"} <= set(found.fields)


@pytest.fixture
def scanned(placed):
    """A scan of two carriers, with a cell in two lines and one that is probably a false detection."""
    cells = [
        dataclasses.replace(one, shift=shift, frequency=796e6 + shift, earfcns=((20, EARFCN + round(shift / 1e5)),))
        for one, shift in zip(placed.cells, (0.0, 0.0, 5e6, 5e6, 5e6))
    ]
    cells += [
        dataclasses.replace(cells[0], first=0.5, windows=1),
        dataclasses.replace(cells[2], identity=5, chance=True),
    ]
    scan = Scan(791e6, 806e6, 151)
    return dataclasses.replace(placed, cells=tuple(cells), scan=scan)


@pytest.fixture
def deep(placed):
    """A survey with a cell of which the identity alone is known, and one whose SIB1 was not read."""
    detected = tuple(Detected(0.17 * i, 326_400 * i + 99, None, -71.0, 19.0, 100, 0.0, (13.4, 52.5)) for i in range(2))
    identity = SurveyIdentity(88, 0.0, 0.17, None, 2, -71.0, 19.0, 100, detected)
    bare = dataclasses.replace(placed.cells[1], sib1=None, no_sib1="no-control")
    cells = (placed.cells[0], bare, *placed.cells[2:])
    return dataclasses.replace(placed, cells=cells, identities=(identity,))


@pytest.mark.parametrize("name", [name for name in OWN if name != "pcap"])
@pytest.mark.parametrize("kind", ["scanned", "deep"])
def test_further_surveys_agree_with_their_forms(request, kind, name):
    survey = request.getfixturevalue(kind)
    found = compared(compare_lists.of_survey(survey), OWN[name](survey))
    assert [one.verdict for one in found.verdicts] == ["agree"] * (5 if kind == "scanned" else 6)


@pytest.mark.parametrize("name", ["search_all", "evidence_all", "evidence", "ids"])
def test_own_lists_agree_with_the_survey(survey_json, name):
    """The shipped recording: what lte_cli writes of it, against its survey."""
    data = (EXAMPLES / f"outputs/{name}.json").read_bytes()
    found = compared(compare_lists.of_survey(Survey.from_json(survey_json)), data)
    assert [one.verdict for one in found.verdicts] == ["agree"] and "start" in found.fields


# ---- the command


@pytest.fixture
def files(tmp_path, survey_json):
    """Our survey, and a list of theirs that agrees."""
    ours, theirs = tmp_path / "ours.json", tmp_path / "theirs.csv"
    ours.write_text(json.dumps(stand_in.survey_of(stand_in.truth(), survey_json).to_json()))
    theirs.write_bytes(data_of("csv", stand_in.truth()))
    return ours, theirs


def test_exit_status_is_that_of_cmp(tool, files, tmp_path):
    ours, theirs = files
    run = tool("compare", ours, theirs)
    assert run.status == 0 and run.out.endswith("\n5 agree\n") and run.err == ""
    assert tool("compare", ours, "-", stdin=theirs.read_bytes()).out == run.out.replace(str(theirs), "standard input")
    theirs.write_bytes(data_of("csv", stand_in.planted("tac")))
    run = tool("compare", ours, theirs)
    assert run.status == 1 and run.out.endswith("\n4 agree, 1 differ (tac 1)\n")
    assert tool("compare", ours, theirs, "--fields", "identity,cell").status == 0
    assert tool("compare", ours, tmp_path / "nothing.csv").status == 2
    assert tool("compare", ours).status == 2
    assert tool("compare", ours, theirs, "--fields", "colour").status == 2
    assert tool("compare", "-", theirs).status == 2
    assert tool("compare", ours, theirs, "--tolerance", "-1").status == 2


def test_json_fits_the_schema_and_csv_has_its_verdicts(tool, files):
    from lte_tools import foreign

    ours, theirs = files
    theirs.write_bytes(data_of("csv", stand_in.planted("level")))
    run = tool("compare", ours, theirs, "--json")
    found = json.loads(run.out)
    foreign.check(found, "compare", "x")
    assert run.status == 1 and found["agrees"] is False and len(found["levels"]) == 5
    rows = list(csv.DictReader(io.StringIO(tool("compare", ours, theirs, "--csv").out)))
    assert [row["verdict"] for row in rows] == [one["verdict"] for one in found["verdicts"]]
    assert rows[-1]["field"] == "level" and rows[-1]["identity"] == "64" and rows[-1]["level"] == "3.0"


def test_page_has_the_verdicts(tool, files, tmp_path):
    ours, theirs = files
    theirs.write_bytes(data_of("csv", stand_in.planted("tac")))
    out = tmp_path / "compare.html"
    assert tool("compare", ours, theirs, "--html", out).status == 1
    text = out.read_text()
    assert re.search(r"<td [^>]*>differ</td>", text) and "theirs has the two bytes exchanged" in text
    assert not re.search(r"(src|href)=.https?:", text)
    assert tool("compare", ours, theirs, "--html", theirs).status == 2
    assert tool("compare", ours, theirs, "--html", tmp_path / "no/where").status == 2


def test_columns_are_named(tool, files):
    ours, theirs = files
    theirs.write_text("Zelle;Stärke\n271;-1\n33;-4\n64;-10.5\n300;-15\n9;-23\n", encoding="cp1252")
    assert tool("compare", ours, theirs).status == 2
    run = tool("compare", ours, theirs, "--columns", "pci=Zelle,level=Stärke")
    assert run.status == 0 and "levels: theirs are +51.0 dB" in run.out
    assert tool("compare", ours, theirs, "--columns", "pci=Cell").status == 2
    assert tool("compare", ours, theirs, "--columns", "colour=Zelle").status == 2


def test_recording_is_listed_first(tool, recording, tmp_path):
    theirs = tmp_path / "theirs.csv"
    theirs.write_text("pci,tac,eci\n217,1,18905602\n")
    run = tool("compare", recording, theirs, "--jobs", "1", "--offset", "0", "--every", "0.05")
    assert run.status == 0, run.err
    assert run.out.endswith("1 agree\n")


# ---- hostile input

HOSTILE = {
    "empty": b"",
    "blank": b" \n\n",
    "binary": bytes(range(256)) * 40,
    "endless line": b"pci" * 100_000,
    "million lines": b"pci,tac\n" + b"1,2\n" * 1_000_000,
    "UTF-16": "pci,tac\n504,1\n".encode("utf-16"),
    "cut UTF-16": b"\xff\xfep\0c",
    "out of range": b"pci,tac\n271,1\n504,1\n",
    "digits": b"pci,tac\n271," + b"9" * 5_000 + b"\n",
    "level": b"pci,rsrp\n271,1e999\n",
    "NaN level": b"pci,rsrp\n271,infinity\n",
    "no column": b"colour,shape\nred,round\n",
    "quote": b'pci,tac\n"271,1\n' + b"x" * 200_000,
    "JSON": b'{"cells": [1, 2',
    "deep JSON": b"[" * 100_000,
    "JSON without cells": b'{"a": 1}',
    "wrong survey": b'{"cells": [{"identity": 600}]}',
    "wrong search": b'[{"identity": 600, "at": 1}]',
    "srsran": b"Found CELL 796.0 MHz, EARFCN=6200, PHYID=999, 50 PRB, 2 ports\n",
    "openlte": b"info channel_found_begin phys_cell_id=3 n_ant=7\n",
    "cell-scanner": b"CID A fc foff RXPWR C nRB P PR X\n1 9 739M 1k -2 N 50 N one 1\n",
    "pcap cut": stand_in.capture(stand_in.truth())[:-7],
    "pcap head": stand_in.capture(stand_in.truth())[:20],
    "pcap noise": stand_in.capture(stand_in.truth())[:24] + bytes(range(256)) * 20,
}


@pytest.mark.parametrize("name", HOSTILE)
def test_hostile_list_is_refused_in_one_line(tool, files, tmp_path, name):
    path = tmp_path / "hostile"
    path.write_bytes(HOSTILE[name])
    before = sorted(tmp_path.iterdir())
    run = tool("compare", files[0], path)
    assert is_one_line(run) and run.status == 2, (run.out[:200], run.err[:500])
    assert str(path) in run.err and sorted(tmp_path.iterdir()) == before


def test_capture_without_tshark_is_refused_in_one_line(tool, files, tmp_path, monkeypatch):
    path = tmp_path / "a.pcap"
    path.write_bytes(stand_in.capture(stand_in.truth()))
    monkeypatch.setenv("PATH", str(tmp_path))
    run = tool("compare", files[0], path)
    assert is_one_line(run) and run.status == 2 and "tshark" in run.err


def test_place_is_named(tool, files):
    files[1].write_text("pci,tac\n271,1\n\n504,1\n")
    assert "line 4: identity: 504 is not between 0 and 503" in tool("compare", *files).err


def test_cell_of_ours_states_what_it_lies_under(ours):
    (note,) = [one.note for one in compared(ours, data_of("csv", stand_in.planted("left out"))).verdicts if one.note]
    assert note.startswith("level -66.0 dBFS, 14.0 dB below PCI 271; S/N 38.0 dB; our MIB bffc00")


def test_one_cell_a_thousand_times_is_one_verdict(ours):
    data = data_of("cell_search", stand_in.truth() + [stand_in.truth()[2]] * 1_000)
    found = compared(ours, data)
    assert differences(found) == [("two-lines", None, 64)] and len(found.verdicts) == 6
    assert "1001 lines" in found.verdicts[-1].note and len(found.verdicts[-1].places) == 5


def test_random_changes_are_read_or_refused(ours):
    """Each list has to be read, or to be refused in one line."""
    from lte_tools.machine import Refused
    from tests.fuzz import mutated

    for number in range(400):
        draw = random.Random(number)
        name = draw.choice([name for name in FORMS if name != "pcap"])
        try:
            compared(ours, mutated(draw, data_of(name, stand_in.truth())))
        except Refused as refused:
            assert "\n" not in str(refused)


# ---- reasons

FAST = ("--jobs", "1", "--offset", "0", "--every", "0.05")  # one window, and no question to lte_tune


def reasons(run):
    """The cases and notes of cells that only their list has, by identity."""
    found = json.loads(run.out)
    return {one["identity"]: (one["case"], one["note"]) for one in found["verdicts"] if one["verdict"] == "theirs-only"}


def test_invented_cell_has_its_reason(tool, recording, tmp_path):
    theirs = tmp_path / "theirs.csv"
    theirs.write_text("pci,start\n217,0.0073958333\n400,0.001\n301,0.0073958333\n")
    run = tool("compare", recording, theirs, *FAST, "--json")
    assert run.status == 1, run.err
    found = reasons(run)
    assert set(found) == {400, 301}
    assert found[400][0] == found[301][0] == "nothing-there"
    assert "at their frame start there is no PSS detection" in found[400][1]
    assert "at their frame start there is a PSS detection with PCI 217" in found[301][1]


def test_weak_cell_is_detected_below_the_rule(tool, sent, tmp_path):
    """Cell 217 in noise, in which its identity stands out and no MIB passes its CRC."""
    draw = np.random.default_rng(11)
    noise = draw.standard_normal((len(sent), 2)) @ (1, 1j)
    path = tmp_path / "weak.ci16"
    path.write_bytes(radio.to_bytes(0.3 * sent + 0.21 * radio.peak(sent) * noise))
    theirs = tmp_path / "theirs.csv"
    theirs.write_text("pci,ports\n217,1\n")
    run = tool("compare", path, theirs, *FAST, "--json")
    assert run.status == 1, run.err
    case, note = reasons(run)[217]
    assert case == "below-our-rule" and re.search(r"half-frames with \d+ of 124 signs", note) and "our choice" in note


# ---- bundles


@pytest.fixture
def bundle(tool, certifying, recording, tmp_path):
    """A bundle of a cell that only their list has, and of one whose tracking area differs."""
    theirs = tmp_path / "theirs.csv"
    theirs.write_text("pci,tac,start\n217,256,0.0073958333\n400,9,0.001\n301,9,0.0073958333\n")
    run = tool("compare", recording, theirs, *FAST, "--bundle", tmp_path / "a.tar")
    assert run.status == 1, run.err
    return tmp_path / "a.tar"


def test_bundle_holds_and_equal_input_makes_equal_bytes(tool, bundle, recording, tmp_path):
    run = tool("compare", "--verify", bundle)
    assert run.status == 0 and ": holds: " in run.out and run.out.count("\n") == 1, run
    (tmp_path / "further").mkdir()
    copies = [shutil.copy(path, tmp_path / "further") for path in (recording, tmp_path / "theirs.csv")]
    other = tmp_path / "further/b.tar"
    assert tool("compare", *copies, *FAST, "--bundle", other).status == 1
    assert other.read_bytes() == bundle.read_bytes()


def test_script_of_a_bundle_compares_the_answers(bundle, tmp_path, monkeypatch):
    """verify, with the programs on PATH."""
    folder = tmp_path / "out"
    (folder / "windows").mkdir(parents=True)
    for name, data in files_of(bundle).items():
        (folder / name).write_bytes(data)
    (tmp_path / "bin").mkdir()
    (tmp_path / "bin/lte_cli").symlink_to(os.environ["LTE_CLI"])
    monkeypatch.setenv("PATH", f"{tmp_path / 'bin'}:{os.environ['PATH']}")
    words = {"cwd": folder, "capture_output": True, "check": False}
    assert subprocess.run(["sh", "verify"], **words).returncode == 0
    path = folder / "windows/0.evidence.json"
    path.write_bytes(path.read_bytes().replace(b"217", b"218", 1))
    assert subprocess.run(["sh", "verify"], **words).returncode == 1


def files_of(path):
    return compare_bundle.read(path.read_bytes(), "a")


def test_bundle_has_what_it_states(bundle):
    files = files_of(bundle)
    assert {"README.txt", "bundle.json", "comparison.json", "ours.json", "reasons.json", "theirs", "verify"} <= set(
        files
    )
    assert {"windows/0.ci16", "windows/0.evidence.json", "windows/0.why-400-one-port.json"} <= set(files)
    assert len(files["windows/0.one-port.cert"]) == 10_501 and files["windows/0.two-ports.cert"] == b""


@pytest.mark.parametrize(
    "name",
    ["windows/0.ci16", "windows/0.one-port.cert", "windows/0.evidence.json", "theirs", "ours.json", "bundle.json"],
)
def test_changed_byte_is_found(tool, bundle, name):
    data = bytearray(bundle.read_bytes())
    place = bytes(data).index(files_of(bundle)[name])
    size = len(files_of(bundle)[name])
    for at in (place, place + size // 2, place + size - 1):
        changed = bytearray(data)
        changed[at] ^= 1
        bundle.write_bytes(changed)
        run = tool("compare", "--verify", bundle)
        assert run.status in (1, 2) and (run.out + run.err).count("\n") == 1 and "Traceback" not in run.err, at


@pytest.mark.parametrize(
    "name, says",
    [
        ("windows/0.one-port.cert", "certificate 0 is of another MIB"),
        ("windows/0.ids.json", "reports something else now"),
        ("comparison.json", "the verdicts differ now"),
    ],
)
def test_changed_claim_is_found_though_its_sum_is_right(tool, bundle, name, says):
    """Whoever changes a file can change its sum too: the programs are asked again."""
    files = files_of(bundle)
    data = bytearray(files[name])
    data[244 if name.endswith("cert") else data.index(b"1")] ^= 2
    files[name] = bytes(data)
    head = json.loads(files["bundle.json"])
    head["sums"][name] = compare_bundle.digest(files[name])
    files["bundle.json"] = compare_bundle.json_text(head)
    bundle.write_bytes(compare_bundle.archive(files))
    faults = compare_bundle.verify(bundle)
    assert any(says in one for one in faults)
    assert tool("compare", "--verify", bundle).status == 1


@pytest.mark.parametrize("data", [b"", b"x" * 2_000, bytes(10_240), compare_bundle.archive({"a": b"1"})])
def test_file_that_is_no_bundle(tool, tmp_path, data):
    path = tmp_path / "x.tar"
    path.write_bytes(data)
    run = tool("compare", "--verify", path)
    assert is_one_line(run) and run.status == 2 and str(path) in run.err


def test_bundle_needs_a_recording(tool, files, tmp_path):
    assert tool("compare", *files, "--bundle", tmp_path / "x.tar").status == 2
    assert not (tmp_path / "x.tar").exists()
