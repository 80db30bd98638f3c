"""python3 -m tests.fuzz [COUNT [SEED]], in python/

Gives COUNT (5000) mutated inputs to the readers of foreign files: SigMF pairs and archives, WAV, files as one drive,
lists of other receivers, tracks as GPX, NMEA, CSV and gpsd's JSON, what lte_survey and lte_cli wrote as JSON, plans of
cells as CSV, and files of samples. Each has to be read, or to be refused in one line: no other exception, and no part of
an output. Memory is limited to 2 GB. Prints what is not so, and a count; the status is 1 where anything is. The same SEED (1) gives the same
inputs.
"""
import io
import json
import pathlib
import random
import resource
import struct
import sys
import tarfile
import tempfile

import numpy as np

from lte_tools import (
    clashes,
    compare_forms,
    compare_lists,
    compare_outputs,
    compare_verdicts,
    coverage,
    diff,
    foreign,
    kml,
    machine,
    options,
    pcap,
    places,
    plan,
    radio_file,
    summary,
)
from lte_tools import survey_diff, survey_page, survey_table, survey_windows, tables, track
from lte_tools.survey_data import Survey
from tests import stand_in

TOP = pathlib.Path(__file__).resolve().parents[2]
OUTPUTS = TOP / "scripts/examples/outputs"
MEMORY = 2 << 30
FULL = {"u8": (127.5, 127.5, "u1"), "s8": (0, 128, "i1"), "s16": (0, 32_768, "<i2"), "f32": (0, 1, "<f4")}
LIMITS = {"u8": (0, 255), "s8": (-128, 127), "s16": (-32_768, 32_767)}
GPX = "<?xml version='1.0'?><gpx><trk><trkseg>{}</trkseg></trk></gpx>".format(
    "".join(f"<trkpt lat='{i}' lon='2'><time>2026-05-01T10:00:0{i}Z</time></trkpt>" for i in range(4))
)
CSV = "time,lat,lon\n2026-05-01T10:00:05Z,1,2\n1777629606,1.5,2.5\n"
NMEA = "$GPRMC,100005.00,A,0100.0,N,00200.0,E,1.0,2.0,010526,,,A*5B\n$GPGGA,100006.00,0100.0,N,00200.0,E,1,08,1,1,M,,M,,*5F\n"
PLAN = "name;pci;enodeb;sector;tac;plmn;earfcn;lat;lon\nA;271;107216;1;4660;001-01;3100;52.5;13.4\nB;3;;;;;;;\n"
GPSD = '{"class":"TPV","mode":3,"time":"2026-05-01T10:00:05.000Z","lat":1,"lon":2}\n{"class":"SKY"}\n'
META = {
    "global": {"core:datatype": "cu8", "core:sample_rate": 2.4e6},
    "captures": [{"core:frequency": 796e6, "core:datetime": "2026-05-01T10:00:00Z", "core:global_index": 5}],
}
WAVE = (
    struct.pack("<4sI4s4sIHHIIHH", b"RIFF", 0, b"WAVE", b"fmt ", 16, 1, 2, 2_400_000, 0, 0, 8)
    + struct.pack("<4sI8H8H9I", b"auxi", 68, *(2026, 5, 5, 1, 10, 0, 0, 0) * 2, 796_000_000, *(0,) * 8)
    + struct.pack("<4sI", b"data", 300_000)
)
TOKENS = [
    "0",
    "-1",
    "1e999",
    "1e300",
    "NaN",
    "null",
    "true",
    '""',
    "[]",
    "{}",
    "[" * 2_000,
    "9" * 400,
    "1e-300",
    "\0",
    "\udcff",
]
VALUES = [0, -1, 1e300, 10**400, True, None, "", "x", [], {}, [[[]]], 0.5, "9" * 500, "2026-13-01T00:00:00Z", "\0"]


def mutated(draw, data):
    """Returns bytes with some of them changed, cut out, doubled, or replaced by a token."""
    data = bytearray(data)
    for _ in range(draw.choice((0, 1, 1, 1, 2, 4))):
        if not data:
            break
        at, size = draw.randrange(len(data)), draw.randint(1, 20)
        kind = draw.randrange(5)
        if kind == 0:
            data[at] = draw.randrange(256)
        elif kind == 1:
            del data[at : at + size]
        elif kind == 2:
            data[at:at] = data[at : at + size] * draw.randint(1, 50)
        elif kind == 3:
            data[at : at + draw.randrange(4)] = draw.choice(TOKENS).encode(errors="replace")
        else:
            del data[at:]
    return bytes(data)


def mutated_json(draw, value):
    """Returns a JSON text with a value somewhere in it replaced or removed."""
    value = json.loads(json.dumps(value))
    place = value
    while isinstance(place, (list, dict)) and place:
        key = draw.choice(list(place) if isinstance(place, dict) else range(len(place)))
        if not isinstance(place[key], (list, dict)) or not place[key] or draw.random() < 0.2:
            if draw.random() < 0.1:
                del place[key]
            else:
                place[key] = another(draw, place[key])
            break
        place = place[key]
    return json.dumps(value).encode()


def another(draw, value):
    """Returns a value of any type, or one that is near."""
    if isinstance(value, (int, float)) and not isinstance(value, bool) and draw.random() < 0.6:
        return value * draw.choice((-1, 0.5, 2, 1e6)) + draw.choice((0, 0, 1, -1))
    return draw.choice(VALUES)


def received(draw, form, count):
    """Returns noise as a radio of this form writes it."""
    middle, full, kind = FULL[form]
    numbers = np.random.default_rng(draw.randrange(100)).standard_normal(count) * full / 8 + middle
    return (numbers if form == "f32" else np.clip(np.round(numbers), *LIMITS[form])).astype(kind).tobytes()


def either(draw, value):
    return mutated_json(draw, value) if draw.random() < 0.6 else mutated(draw, json.dumps(value).encode())


# ---- inputs: each writes a file, and reads it


def try_track(draw, folder):
    suffix, text = draw.choice(((".gpx", GPX), (".csv", CSV), (".nmea", NMEA), (".json", GPSD)))
    path = folder / f"a{suffix}"
    path.write_bytes(mutated(draw, text.encode()))
    way = track.read(path)
    track.iso(way.first), track.iso(way.last), way.at(way.first)


def try_sigmf(draw, folder):
    (folder / "a.sigmf-meta").write_bytes(either(draw, META))
    sizes = (0, 1, 999, 200_001, 300_000, 300_000, 300_000)
    (folder / "a.sigmf-data").write_bytes(received(draw, "u8", draw.choice(sizes)))
    read_file(folder / "a.sigmf-meta")


def try_archive(draw, folder):
    out = io.BytesIO()
    with tarfile.open(fileobj=out, mode="w", format=draw.choice((tarfile.PAX_FORMAT, tarfile.GNU_FORMAT))) as archive:
        for name, data in (("a.sigmf-meta", either(draw, META)), ("a.sigmf-data", received(draw, "u8", 300_000))):
            info = tarfile.TarInfo(name)
            info.size = len(data)
            archive.addfile(info, io.BytesIO(data))
    data = bytearray(out.getvalue())
    for _ in range(draw.choice((0, 0, 0, 1, 6))):
        data[draw.randrange(1_536)] = draw.randrange(256)
    (folder / "a.sigmf").write_bytes(data[: draw.choice((len(data), len(data), len(data), draw.randrange(len(data))))])
    read_file(folder / "a.sigmf")


def try_samples(draw, folder):
    form = draw.choice(("u8", "s8", "s16", "f32"))
    size = draw.choice((0, 1, 7, 8, 100, 300_000, 300_000, 300_001))
    other = draw.randbytes(size), bytes(size), b"text " * (size // 5), b"\xff" * size
    data = draw.choice((*other, *[received(draw, form, size)] * 4))
    (folder / "a.bin").write_bytes(data)
    read_file(
        folder / "a.bin", form=form, rate=draw.choice((None, 1.92e6, 2.4e6, 1e10)), shift=draw.choice((None, -1e5))
    )


def try_wave(draw, folder):
    name = draw.choice(("a.wav", "HDSDR_20260501_100000Z_796000kHz_RF.wav", "baseband_9Hz_10-15-30_14-07-2026.wav"))
    (folder / name).write_bytes(mutated(draw, WAVE) + received(draw, "u8", draw.choice((0, 999, 300_000, 300_000))))
    read_file(folder / name, carrier=draw.choice((0, 796.3e6)))


def try_drive(draw, folder):
    paths = [folder / f"a_20260501_1000{draw.randrange(100):02}{draw.choice(('', 'Z'))}.cu8", folder / "a.sigmf-meta"]
    (folder / "a.sigmf-meta").write_bytes(either(draw, META))
    (folder / "a.sigmf-data").write_bytes(received(draw, "u8", 300_000))
    paths[0].write_bytes(received(draw, "u8", 300_000))
    draw.shuffle(paths)
    file = read_file(paths[0], further=tuple(paths[1:]), rate=2.4e6)
    Survey.from_json({**json.loads((OUTPUTS / "survey.json").read_text()), "parts": parts_json(file)})


def parts_json(file):
    return [one.to_json() for one in summary.parts_of(file)]


def read_file(path, **keys):
    file = radio_file.opened(options.FileOptions(path, **keys))
    for start, seconds in file.starts(0, 0.17, 10)[:2]:
        file.recording(start, min(seconds, 0.17))
        file.time_at(start)
    return file


def try_survey(draw, folder):
    path, out = folder / "a.json", folder / "a.pcap"
    path.write_bytes(either(draw, json.loads((OUTPUTS / "survey.json").read_text())))
    survey = Survey.read(path)
    pcap.write(out, pcap.of_survey(survey))
    out.unlink()
    if draw.random() < 0.02:
        survey_page.page_of(survey)


def try_evidence(draw, folder):
    found, out = json.loads((OUTPUTS / "evidence.json").read_text()), folder / "a.pcap"
    pcap.write(out, pcap.read("input", either(draw, found), draw.choice((None, 303))))
    out.unlink()


def try_plan(draw, folder):
    path = folder / "a.csv"
    text = PLAN if draw.random() < 0.5 else PLAN.replace(";", ",")
    path.write_bytes(mutated(draw, text.encode()))
    planned = plan.read(path)
    tables.csv_of(plan.COLUMNS, plan.findings_of(stored(), planned), stored())


def stored():
    """The stored survey."""
    return Survey.read(OUTPUTS / "survey.json")


def try_tables(draw, folder):
    """Reads a survey with places, and makes all tables and files of places of it."""
    value = json.loads((OUTPUTS / "survey.json").read_text())
    value["track"] = {"first": "", "last": "", "places": 1, "windows": [[0, 13.4, 52.5], [0.17, 13.4, 52.5001]]}
    value["cells"][0]["seen"][0]["place"] = [13.4, 52.5]
    value["cells"] *= 2
    if draw.random() < 0.5:
        value["identities"] = [identity()]
    survey = read_survey(draw, folder / "a.json", value)
    survey_windows.csv_of(survey), survey_table.csv_of(survey), survey_table.table_of(survey)
    tables.csv_of(clashes.COLUMNS, clashes.clashes_of(survey, 6), survey)
    tables.csv_of(coverage.COLUMNS, coverage.coverage_of(survey, coverage.Limits(-80, 5)), survey)
    places.geojson_text(survey), kml.of_survey(survey)
    other = read_survey(draw, folder / "b.json", value)
    found = survey_diff.difference_of(survey, other, 50.0)
    survey_diff.table_of(found), survey_diff.csv_of(found), survey_diff.csv_of_places(found)
    if draw.random() < 0.02 and found.square:
        diff.draw(folder / "a.png", found)
        (folder / "a.png").unlink()


def identity():
    """A cell of which the identity alone is known, in two windows."""
    seen = {"at": 9, "below": 9.0, "datetime": None, "gain": 0.0, "level": -60.0, "matches": 100, "place": [13.4, 52.5]}
    times = {"first": 0.0, "last": 0.17, "datetime": None, "windows": 2}
    detected = [{**seen, "seconds": second} for second in (0.0, 0.17)]
    return {**times, "identity": 88, "level": -60.0, "below": 9.0, "matches": 100, "detected": detected}


def read_survey(draw, path, value):
    path.write_bytes(either(draw, value))
    return Survey.read(path)


def try_list(draw, folder):
    """Reads another receiver's list, and compares it with our survey."""
    name = draw.choice([name for name in stand_in.FORMS if name != "pcap"])
    found = stand_in.FORMS[name][1](stand_in.planted(draw.choice((None, *stand_in.FAULTS))))
    data = mutated(draw, found if isinstance(found, bytes) else found.encode())
    theirs = compare_forms.read(data, "list", draw.choice((None, None, stand_in.FORMS[name][0])), {})
    ours = compare_lists.of_survey(
        stand_in.survey_of(stand_in.truth(), json.loads((OUTPUTS / "survey.json").read_text()))
    )
    compared = compare_verdicts.comparison_of(ours, theirs)
    compare_outputs.table_of(compared), compare_outputs.csv_of(compared)
    foreign.check(compare_outputs.json_of(compared), "compare", "JSON of lte_compare, which has to fit the schema")


KINDS = (
    try_track,
    try_sigmf,
    try_archive,
    try_wave,
    try_drive,
    try_samples,
    try_survey,
    try_evidence,
    try_plan,
    try_tables,
    try_list,
)


def fault_of(draw, kind, folder):
    """Returns what is wrong with a reader of one input, or None."""
    try:
        kind(draw, folder)
    except machine.Refused as refused:
        if "\n" in str(refused).strip():
            return f"more than one line: {refused}"
    except OSError as fault:
        if fault.strerror is None:
            return f"{type(fault).__name__}: {fault}"
    except Exception as fault:  # what must not come through
        return f"{type(fault).__name__}: {fault}"
    left = [
        path.name for path in folder.iterdir() if path.suffix in (".pcap", ".html", ".png") or path.name.startswith(".")
    ]
    return f"a part of an output: {left}" if left else None


def faults(count, seed):
    """Yields what is wrong, with the number of the input."""
    with tempfile.TemporaryDirectory() as room:
        for number in range(count):
            draw, folder = random.Random(f"{seed} {number}"), pathlib.Path(room) / str(number)
            folder.mkdir()
            kind = KINDS[number % len(KINDS)]
            if fault := fault_of(draw, kind, folder):
                yield f"{number} {kind.__name__}: {fault}"
            for path in folder.iterdir():
                path.unlink()


def main(count="5000", seed="1"):
    resource.setrlimit(resource.RLIMIT_AS, (MEMORY, MEMORY))
    machine.note = radio_file.note = lambda text: None
    found = list(faults(int(count), seed))
    print(*found, f"fuzz: {count} inputs, {len(found)} faults", sep="\n")
    return bool(found)


if __name__ == "__main__":
    sys.exit(main(*sys.argv[1:]))
