"""Foreign JSON, the survey as dataclasses, packets, options, bands and forms."""
import argparse
import copy
import datetime
import json
import pathlib
import struct

import numpy as np
import pytest

from tests.conftest import EXAMPLES, is_one_line
from lte_tools import answers, arguments, bands, foreign, forms, machine, options, pcap, records, survey_data

# ---- JSON


@pytest.mark.parametrize(
    "data, text",
    [
        (b"[" * 100_000, "nested too deeply"),
        (b'{"a":' * 100_000, "nested too deeply"),
        (b"{", "not JSON"),
        (b"\xff", "not UTF-8"),
        (b"[NaN]", "NaN is not a number"),
        (b"[-Infinity]", "-Infinity"),
        (b"[" + b"1" * 5_000 + b"]", "more digits"),
    ],
)
def test_bad_json(data, text):
    with pytest.raises(machine.Refused, match="^x: [^\n]*$") as refused:
        foreign.parsed(data, "x")
    assert text in str(refused.value)


def spoiled(survey, path, value):
    """A survey with another value at a path of keys."""
    found = copy.deepcopy(survey)
    place = found
    for key in path[:-1]:
        place = place[key]
    if value is KeyError:
        del place[path[-1]]
    else:
        place[path[-1]] = value
    return found


SPOILED = [
    (("cells",), {}, "cells"),
    (("cells", 0), [], "cells[0]"),
    (("cells", 0, "identity"), 504, "cells[0].identity: 504 is not between 0 and 503"),
    (("cells", 0, "identity"), True, "identity"),
    (("cells", 0, "level"), float("inf"), "level"),
    (("cells", 0, "level"), 1e308, "level"),
    (("cells", 0, "seen", 0, "seconds"), 1e300, "seen[0].seconds"),
    (("cells", 0, "seen", 0, "at"), 10**400, "seen[0].at"),
    (("cells", 0, "seen", 0, "sfn"), "x", "sfn"),
    (("cells", 0, "seen", 0, "mib"), "0a00", "mib"),
    (("cells", 0, "seen", 0, "mib"), "0a0000\n", "mib"),
    (("cells", 0, "seen", 0, "sib1_block"), "00" * 70_000, "sib1_block"),
    (("cells", 0, "seen", 0, "datetime"), "yesterday", "datetime"),
    (("cells", 0, "seen", 0, "datetime"), "2026-13-01T00:00:00Z", "is not a time"),
    (("cells", 0, "seen", 0, "place"), [1e308, 0], "place"),
    (("cells", 0, "sib1"), None, "sib1"),
    (("cells", 0, "sib1"), "x", "sib1"),
    (("cells", 0, "sib1", "cell"), "x", "sib1.cell"),
    (("cells", 0, "sib1", "plmns"), [], "plmns"),
    (("cells", 0, "seen"), [], "seen: 0 items"),
    (("cells", 0, "rule"), "other", "rule"),
    (("cells", 0, "doubts"), ["pilots-of-x"], "doubts[0]"),
    (("cells", 0, "ratios"), [1.0], "ratios"),
    (("cells", 0, "repeats"), -1, "repeats"),
    (("cells", 0, "seen", 0, "gain"), "x", "gain"),
    (("gaps",), [{"first": 0, "last": 1, "samples": 0.5}], "gaps[0].samples"),
    (("powers", 0, "noise"), 1e300, "powers[0].noise"),
    (("steps",), [{"seconds": 1}], "no key decibels"),
    (("offsets",), [[0.0]], "offsets[0]: 1 items"),
    (("unit",), "dB", "unit"),
    (("every",), 0, "every: 0 is not above 0"),
    (("windows",), KeyError, "no key windows"),
    (("track",), {"first": "", "last": "", "places": 1, "windows": [[0, 0, 91]]}, "track.windows[0][2]"),
]


@pytest.mark.parametrize("path, value, text", SPOILED)
def test_spoiled_survey(tool, tmp_path, survey_json, path, value, text):
    file = tmp_path / "x.json"
    file.write_text(json.dumps(spoiled(survey_json, path, value)).replace("Infinity", "1e999"))
    for run in (
        tool("picture", file, "-o", tmp_path / "x.html"),
        tool("pcap", file, "-o", tmp_path / "x.pcap"),
    ):
        assert is_one_line(run) and str(file) in run.err and text in run.err
    assert not (tmp_path / "x.html").exists() and not (tmp_path / "x.pcap").exists()


def test_unknown_keys_are_allowed(survey_json):
    assert survey_data.Survey.from_json({**survey_json, "later": 1}).windows == 1


def test_survey_of_an_earlier_version(survey_json):
    cell = survey_json["cells"][0]
    for part, keys in ((survey_json, ("gaps", "powers", "steps")), (cell, ("doubts", "ratios", "repeats"))):
        for key in keys:
            del part[key]
    del cell["seen"][0]["gain"]
    found = survey_data.Survey.from_json(survey_json)
    assert found.gaps == found.powers == found.steps == () and found.cells[0].doubts == ()
    assert found.cells[0].ratios is None and found.cells[0].seen[0].gain == 0


def test_survey_and_answers_return(survey_json):
    survey = survey_data.Survey.from_json(survey_json)
    assert survey.to_json() == survey_json
    assert survey.to_rows()[0]["plmn"] == "001-01" and survey.to_rows()[0]["tac"] == 4660
    for name, kind in (("ids", answers.Identity), ("search_all", answers.Cell), ("evidence", answers.Evidence)):
        found = json.loads((EXAMPLES / f"outputs/{name}.json").read_text())
        foreign.check(found, name, name)
        assert [one.to_json() for one in records.typed(tuple[kind, ...], found)] == found
    tell = json.loads((EXAMPLES / "outputs/tell.json").read_text())
    assert answers.Tuning.from_json(tell).to_json() == tell


def test_networks_without_a_country():
    networks = answers.Network("262", "02", False), answers.Network(None, "01", True)
    sib1 = answers.Sib1(1, False, 513, False, None, False, True, None, networks, None, -70, (), 1, 0, None, 1)
    assert sib1.networks == ("262-02", "262-01") and (sib1.enodeb, sib1.sector) == (2, 1)


# ---- packets


def packets(data):
    at, found = 24, []
    while at < len(data):
        second, part, size, _ = struct.unpack_from("<4I", data, at)
        found.append((second + part / 1e6, data[at + 16 : at + 16 + size]))
        at += 16 + size
    return found


@pytest.mark.parametrize("name", ["survey", "evidence"])
def test_packets(tool, tmp_path, name):
    data = (EXAMPLES / f"outputs/{name}.json").read_bytes()
    run = tool("pcap", "-o", tmp_path / "x.pcap", "--earfcn", 303, stdin=data)
    assert run.status == 0
    (first, master), (second, sib1) = packets((tmp_path / "x.pcap").read_bytes())
    assert master[12:16] == bytes((127, 0, 2, 71)) and struct.unpack(">H", master[32:34]) == (303,)
    assert struct.unpack(">I", master[36:40]) == (512,) and master[44:] == bytes.fromhex("0a0000")
    assert second - first == pytest.approx(0.005) and sib1[44:].hex().startswith("6040040312")
    assert sum(struct.unpack(">10H", master[:20])) % 0xFFFF == 0


def test_no_packet_of_a_false_detection(tool, tmp_path, survey_json):
    survey_json["cells"][0]["chance"] = True
    (tmp_path / "x.json").write_text(json.dumps(survey_json))
    run = tool("pcap", tmp_path / "x.json", "-o", tmp_path / "x.pcap")
    assert run.status == 0 and "no cell" in run.err and len((tmp_path / "x.pcap").read_bytes()) == 24


def test_packets_of_a_scan_in_dbm(survey_json):
    survey_json.update(unit="dBm", carrier=None)
    survey_json["cells"][0].update(shift=0, frequency=2655e6, earfcns=[[4, 5], [7, 3100]])
    survey_json["cells"][0]["seen"][0]["datetime"] = "2026-05-01T00:00:00Z"
    (blocks,) = pcap.of_survey(survey_data.Survey.from_json(survey_json))
    assert (blocks.earfcn, blocks.level) == (3100, -52.3) and blocks.time == 1777593600
    assert pcap.byte_of(-500.0) == -128 and pcap.byte_of(None) == 0


@pytest.mark.parametrize("year, is_held", [("1969", False), ("2107", False), ("2026", True)])
def test_times_of_a_capture(tool, tmp_path, survey_json, year, is_held):
    survey_json["cells"][0]["seen"][0]["datetime"] = f"{year}-05-01T00:00:00Z"
    (tmp_path / "x.json").write_text(json.dumps(survey_json))
    run = tool("pcap", tmp_path / "x.json", "-o", tmp_path / "x.pcap")
    assert run.status == 0 if is_held else is_one_line(run) and not (tmp_path / "x.pcap").exists()


@pytest.mark.parametrize("words", [["--earfcn", "-1"], ["--earfcn", "300000"], ["--earfcn", "x"], []])
def test_pcap_arguments(tool, tmp_path, words):
    run = tool("pcap", *words, *(["-o", tmp_path / "x.pcap"] if words else []), stdin=b"[]")
    assert is_one_line(run) and not (tmp_path / "x.pcap").exists()


@pytest.mark.parametrize("data", [b"[" * 100_000, b"{}", b"[{}]", b"null", b'"x"', b"", b'[{"at": 1e300}]'])
def test_pcap_of_something_else(tool, tmp_path, data):
    run = tool("pcap", "-o", tmp_path / "x.pcap", stdin=data)
    assert is_one_line(run) and "standard input" in run.err and not (tmp_path / "x.pcap").exists()


# ---- options and arguments


def survey_options(*words):
    args = options.survey_parser("").parse_args([*map(str, words)])
    return options.checked_survey(options.options_of(options.SurveyOptions, args), args.every is not None)


def test_options_of_a_survey():
    found = survey_options("x.cu8", "--shift", "-80e3", "--earfcn", "303", "--jobs", "1")
    assert (found.shift, found.carrier, found.every, found.file) == (-80e3, 2140.3e6, 0.17, pathlib.Path("x.cu8"))
    assert survey_options("x.cu8", "--scan").every == 10 and survey_options("x", "--scan", "--every", "2").every == 2
    assert survey_options("x", "--gain", "-20").gain == -20
    assert survey_options("x", "--gain", "0:-20,14.5:-14").gain == ((0, -20), (14.5, -14))
    start = survey_options("x", "--start", "2026-05-01T09:30:00+02:00").start
    assert start == datetime.datetime(2026, 5, 1, 7, 30, tzinfo=datetime.timezone.utc)


@pytest.mark.parametrize(
    "words, text",
    [
        (["x", "--carrier", "796.7"], "in hertz"),
        (["x", "--earfcn", "1", "--carrier", "796e6"], "one of them"),
        (["x", "--earfcn", "-1"], "no downlink"),
        (["x", "--earfcn", "999999"], "no downlink"),
        (["x", "--follow"], "--follow is for -"),
        (["-", "--scan"], "--scan needs a file"),
        (["x", "--geojson", "y"], "--track"),
        (["x", "--pcap", "/"], "a folder"),
        (["x", "--html", "/proc/none/x"], "nothing can be written"),
    ],
)
def test_options_that_are_refused(words, text):
    with pytest.raises(machine.Refused) as refused:
        survey_options(*words)
    assert text in str(refused.value)


@pytest.mark.parametrize(
    "words",
    [
        ["x", "--rate", "0"],
        ["x", "--rate", "nan"],
        ["x", "--rate", "1e300"],
        ["x", "--every", "inf"],
        ["x", "--every", "1e-9"],
        ["x", "--at", "nan"],
        ["x", "--at", "-1"],
        ["x", "--jobs", "0"],
        ["x", "--gain", "5000"],
        ["x", "--gain", "0:1,x"],
        ["x", "--gain", "0:1,0:2"],
        ["x", "--gain", "-1:1"],
        ["x", "--gain", "0:1:2"],
        ["x", "--start", "yesterday"],
        ["x", "--csv", "--json"],
        ["x", "--form", "u16"],
        [""],
        [],
    ],
)
def test_arguments_that_are_refused(tool, words):
    assert is_one_line(tool("survey", *words))


@pytest.mark.parametrize("text, value", (("2.4M", 2.4e6), ("-80k", -80e3), ("796e6", 796e6), ("1.92", 1.92)))
def test_multiples(text, value):
    assert arguments.number(text) == pytest.approx(value)


@pytest.mark.parametrize("text", ("M", "2.4G", "2.4 M M", "2.4m", "nank"))
def test_text_that_is_no_multiple(text):
    with pytest.raises(argparse.ArgumentTypeError):
        arguments.number(text)


@pytest.mark.parametrize("words", (["--form", "cu8"], ["--format", "u8"], ["--format", "cu8", "--rate", "1.92M"]))
def test_both_spellings_of_a_form(words):
    from lte_tools import options, survey, to_ci16

    args = survey.parser().parse_args(["x.bin", *words])
    assert options.options_of(options.SurveyOptions, args).form == "u8" and args.rate in (None, 1.92e6)
    assert to_ci16.parser().parse_args(["cu8", "2.4M"]).form == "u8"


def test_refusals_name_the_next_step(tool):
    for name, words in (("to_ci16", ["u8", "2.4"]), ("survey", ["x.cu8", "--rate", "2.4"])):
        run = tool(name, *words)
        assert is_one_line(run) and "2.4 million are 2.4e6" in run.err
    run = tool("to_ci16", "x.cu8")
    assert is_one_line(run) and "< FILE" in run.err
    assert is_one_line(tool("picture", "x.ci16", "-o", "x.gif"))


def test_help_and_parsers(tool):
    from lte_tools import add_noise, add_recordings, check_certificate, gr_to_ci16, picture, survey, to_ci16

    for module in (add_noise, add_recordings, check_certificate, gr_to_ci16, pcap, picture, survey, to_ci16):
        assert module.parser().text == module.__doc__
    run = tool("survey", "--help")
    assert run.status == 0 and "--scan" in run.out and "lte_survey" in run.out
    assert tool("survey", "--version").out == f"lte_survey {arguments.VERSION}\n"
    with pytest.raises(SystemExit):
        arguments.Parser("").error("x")


# ---- bands and forms


@pytest.mark.parametrize(
    "earfcn, hertz", [(0, 2110e6), (303, 2140.3e6), (6300, 806e6), (70_596, 422e6), (36_000, None)]
)
def test_earfcn(earfcn, hertz):
    assert bands.frequency_of(earfcn) == hertz
    if hertz:
        assert earfcn in dict((number, band) for band, number in bands.earfcns_of(hertz))
    assert bands.earfcns_of(2140.35e6) == []


def tone(rms=0.3, count=20_000):
    draw = np.random.default_rng(5)
    return rms * (draw.standard_normal(count) + 1j * draw.standard_normal(count))


@pytest.mark.parametrize(
    "written_as, read_as, text",
    [
        ("u8", "s8", "--form u8"),
        ("s8", "u8", "--form s8"),
        ("s16", "s8", "--form s16"),
        ("f32", "s16", "--form f32"),
        ("u8", "f32", "none"),
        ("u8", "s16", "no low bytes"),
        ("u8", "u8", None),
        ("s8", "s8", None),
        ("s16", "s16", None),
        ("f32", "f32", None),
    ],
)
def test_form_is_recognised(written_as, read_as, text):
    from tests.conftest import written

    rms = 0.05 if (written_as, read_as) == ("s16", "s8") else 0.3
    fault = forms.fault_of(np.frombuffer(written(tone(rms), written_as), "u1"), read_as)
    assert (fault is None) if text is None else text in fault


@pytest.mark.parametrize("bits", [8, 9, 10, 11, 12, 14])
@pytest.mark.parametrize("rms", [0.05, 0.2])
def test_numbers_of_a_converter_of_few_bits(bits, rms):
    """Numbers of so many bits, multiplied to fill 16, as programs of radios write those of a dongle."""
    half = (2**bits - 1) / 2
    parts = np.clip(np.round(tone(rms).view(float) * half - 0.5) + 0.5, -half, half)
    words = np.round(parts * 32_767 / half).astype("<i2")
    assert forms.fault_of(words.view("u1"), "s16") is None


@pytest.mark.parametrize("rms", [0.05, 0.1, 0.2])
def test_bytes_as_words(rms):
    from tests.conftest import written

    assert "no low bytes" in forms.fault_of(np.frombuffer(written(tone(rms), "s8"), "u1"), "s16")


def test_high_byte_first():
    from tests.conftest import written

    words = np.frombuffer(written(tone(), "s16"), "<i2").byteswap()
    assert "high byte may come first" in forms.fault_of(words.view("u1"), "s16")
