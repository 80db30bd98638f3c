"""SigMF: pairs and archives that are read, and what is refused in one line."""
import io
import json
import tarfile

import pytest

from lte_tools import machine, sigmf

WHOLE = {"core:datatype": "cu8", "core:sample_rate": 2.4e6}
CAPTURE = {"core:frequency": 796e6, "core:datetime": "2026-03-01T10:00:00Z"}


def meta_file(folder, whole=WHOLE, captures=(CAPTURE,), text=None):
    path = folder / "x.sigmf-meta"
    path.write_text(json.dumps({"global": whole, "captures": list(captures)}) if text is None else text)
    return path


def archive_of(path, files):
    with tarfile.open(path, "w") as archive:
        for name, data in files:
            info = tarfile.TarInfo(name)
            info.size = len(data)
            archive.addfile(info, io.BytesIO(data))
    return path


def test_pair(tmp_path):
    meta = sigmf.read(meta_file(tmp_path))
    assert (meta.form, meta.rate, meta.channels) == ("u8", 2_400_000, 1)
    assert meta.captures == [sigmf.Capture(0, 796e6, "2026-03-01T10:00:00Z")]
    assert meta.data == tmp_path / "x.sigmf-data"


def test_archive_is_read_in_place(tmp_path):
    text = json.dumps({"global": WHOLE, "captures": []}).encode()
    path = archive_of(tmp_path / "x.sigmf", [("../x.sigmf-meta", text), ("/etc/x.sigmf-data", bytes(500))])
    meta = sigmf.read(path)
    assert meta.is_archive and meta.size == 500 and meta.begins % 512 == 0
    assert sorted(one.name for one in tmp_path.iterdir()) == ["programs", "x.sigmf"]


def test_archive_that_was_cut(tmp_path):
    text = json.dumps({"global": WHOLE, "captures": []}).encode()
    path = archive_of(tmp_path / "x.sigmf", [("x.sigmf-meta", text), ("x.sigmf-data", bytes(50_000))])
    path.write_bytes(path.read_bytes()[:20_000])
    with pytest.raises(machine.Refused, match="cut|not a SigMF"):
        sigmf.read(path)


def test_archive_of_other_files(tmp_path):
    with pytest.raises(machine.Refused, match="0 files .sigmf-meta"):
        sigmf.read(archive_of(tmp_path / "x.sigmf", [("a", b"b")]))
    (tmp_path / "y.sigmf").write_bytes(b"no archive")
    with pytest.raises(machine.Refused, match="not a SigMF archive"):
        sigmf.read(tmp_path / "y.sigmf")


REFUSED = {
    "nested": ("[" * 100_000, "nested too deeply"),
    "no JSON": ("{", "not JSON"),
    "a list": ("[]", "no datatype"),
    "not UTF-8": (None, "not JSON"),
    "NaN": ('{"global": {"core:datatype": "cu8", "core:sample_rate": NaN}}', "not JSON"),
    "huge rate": ('{"global": {"core:datatype": "cu8", "core:sample_rate": 1' + "0" * 400 + "}}", "many digits"),
    "text rate": ('{"global": {"core:datatype": "cu8", "core:sample_rate": "fast"}}', "rate 'fast'"),
    "true rate": ('{"global": {"core:datatype": "cu8", "core:sample_rate": true}}', "rate True"),
    "negative rate": ('{"global": {"core:datatype": "cu8", "core:sample_rate": -1}}', "rate -1"),
    "list datatype": ('{"global": {"core:datatype": ["cu8"], "core:sample_rate": 1e6}}', "datatype"),
    "object datatype": ('{"global": {"core:datatype": {}, "core:sample_rate": 1e6}}', "datatype"),
    "other datatype": ('{"global": {"core:datatype": "rf32_be", "core:sample_rate": 1e6}}', "datatype rf32_be"),
    "captures": ('{"global": {"core:datatype": "cu8", "core:sample_rate": 1e6}, "captures": 3}', "no datatype"),
    "capture": (
        '{"global": {"core:datatype": "cu8", "core:sample_rate": 1e6}, "captures": [1]}',
        "captures[0]: 1 is not",
    ),
    "sample": (
        json.dumps({"global": WHOLE, "captures": [{}, {"core:sample_start": -5}]}),
        "captures[1]: core:sample_start -5",
    ),
    "hertz": (json.dumps({"global": WHOLE, "captures": [{"core:frequency": "x"}]}), "captures[0]: core:frequency 'x'"),
    "digits": ('{"global": {"core:datatype": "cu8", "core:sample_rate": ' + "9" * 5_000 + "}}", "more digits"),
    "channels": (
        '{"global": {"core:datatype": "cu8", "core:sample_rate": 1e6, "core:num_channels": 1e20}}',
        "channels",
    ),
}


@pytest.mark.parametrize("name", REFUSED)
def test_refused(tmp_path, name):
    text, wanted = REFUSED[name]
    path = meta_file(tmp_path, text=text or "")
    if text is None:
        path.write_bytes(b"\xff\xfe\x00")
    with pytest.raises(machine.Refused, match="^[^\n]*$") as refused:
        sigmf.read(path)
    assert wanted in str(refused.value)


@pytest.mark.parametrize("captures", [[{"core:sample_start": 5}, {}], [{}, {}], [{"core:sample_start": -1}]])
def test_captures_in_order(tmp_path, captures):
    with pytest.raises(machine.Refused):
        sigmf.read(meta_file(tmp_path, captures=captures))


def test_headers_and_datasets(tmp_path):
    with pytest.raises(machine.Refused, match="behind headers"):
        sigmf.read(meta_file(tmp_path, captures=[{"core:header_bytes": 4}]))
    with pytest.raises(machine.Refused, match="behind headers"):
        sigmf.read(meta_file(tmp_path, whole={**WHOLE, "core:dataset": "x"}))


@pytest.mark.parametrize("time", [5, "yesterday", "2026-13-01T00:00:00Z", "0001-01-01T00:00:00Z", [], True])
def test_a_time_that_is_none(tmp_path, time):
    with pytest.raises(machine.Refused, match="^[^\n]*captures\\[1\\]: core:datetime .* is not a time"):
        sigmf.read(meta_file(tmp_path, captures=[CAPTURE, {"core:sample_start": 5, "core:datetime": time}]))


def test_times_and_numbers_of_the_stream(tmp_path):
    captures = [{"core:datetime": None}, {"core:sample_start": 5, "core:datetime": "2026-03-01T10:00:00.5"}]
    first, second = sigmf.read(meta_file(tmp_path, captures=captures)).captures
    assert first.time is None and second.time == 1772359200.5
    with pytest.raises(machine.Refused, match="core:global_index -1 is not"):
        sigmf.read(meta_file(tmp_path, captures=[{"core:global_index": -1}]))
