"""The panels on some seconds of a radio's file: the file as recorded, hits, and each cell.

Debian: python3-numpy, python3-scipy, python3-matplotlib.
"""
from __future__ import annotations

import textwrap
from typing import Any, NamedTuple, Sequence

import numpy as np
from matplotlib import pyplot
from matplotlib.lines import Line2D
from matplotlib.ticker import MaxNLocator

import lte_reference.cell
import lte_reference.search

from . import columns, radio
from .answers import Cell, Identity
from .picture_style import COLOURS, LINES, WIDTH, carrier_text, headed, number_text
from .picture_view import BAND, View
from .radio import Real
from .rules import RULES


reference: Any = lte_reference.search
reference_cell: Any = lte_reference.cell
BY_RULE: dict[str, Any] = {rule.name: reference.RULES[rule.arguments] for rule in RULES}
BINS = 48  # samples in a column of the metric
LABELS = 16  # hits that are named
LAST = 19_346  # the place behind the last one whose metric is compared
SCALE = (-120, 0)  # dBFS of every spectrum
FIELD = 38  # characters of a line of fields
MHZ = 4e6  # samples per second from which on a frequency relative to the file's centre is shown in MHz


# ---- the file as recorded


def draw_file(figure: Any, view: View) -> None:
    """Draws the spectrum over time and in all, and what there is to say of it."""
    over_time, in_all, text = figure.subplots(1, 3, gridspec_kw={"width_ratios": (2.1, 1, 1.35)})
    unit, scale, centre = frequency_unit(view)
    draw_waterfall(over_time, view, scale, centre)
    draw_mean_spectrum(in_all, view, scale, centre)
    carrier = centre + view.carrier / scale
    for ax in (over_time, in_all):
        ax.set_ylim(centre - view.seen.rate / 2 / scale, centre + view.seen.rate / 2 / scale)
        ax.yaxis.set_major_locator(MaxNLocator(7, steps=[1, 2, 2.5, 3, 5, 10]))
        ax.ticklabel_format(axis="y", useOffset=False)
        for edge in (-BAND, BAND):
            ax.axhline(carrier + edge / scale, color="white" if ax is over_time else "black", ls="--", lw=1)
    over_time.set_ylabel(unit)
    draw_nothing(text, "\n".join(view.summary()))


def frequency_unit(view: View) -> tuple[str, float, float]:
    """Returns the unit of frequencies: its text, hertz of a step, and steps at the file's centre."""
    if view.centre:
        return "MHz", 1e6, view.centre / 1e6
    if view.seen.rate > MHZ:
        return "offset from centre, MHz", 1e6, 0
    return "offset from centre, kHz", 1e3, 0


def draw_waterfall(ax: Any, view: View, scale: float, centre: float) -> None:
    """Draws the power of each 15 kHz over time, the 1.08 MHz of the cell, and where samples are at full scale."""
    seen = view.seen
    level = 10 * np.log10(seen.power + 1e-20)
    low = centre + (seen.lowest - seen.step / 2) / scale
    ends = (0, 1000 * seen.seconds, low, low + len(level) * seen.step / scale)
    colours = pyplot.get_cmap("viridis", 40)  # few of them, so that a file stays small
    keys: dict[str, Any] = {
        "aspect": "auto",
        "interpolation": "none",
        "origin": "lower",
        "vmin": SCALE[0],
        "vmax": SCALE[1],
    }
    image = ax.imshow(level, colours, extent=ends, **keys)
    box = {"facecolor": "black", "alpha": 0.6, "lw": 0, "pad": 1.5}
    note = {"color": "white", "transform": ax.transAxes, "bbox": box}
    ax.text(0.01, 0.93, "between the lines: 1.08 MHz", fontsize=7.5, va="center", **note)
    for start, end in seen.still if not seen.is_still else ():
        ax.axvspan(1000 * start, 1000 * end, facecolor="none", edgecolor="white", hatch="//", lw=0.8)
    if seen.still and not seen.is_still:
        ax.text(0.01, 0.07, "hatched: constant", fontsize=7.5, va="center", **note)
    if view.nothing:
        ax.text(0.5, 0.5, view.nothing, fontsize=16, ha="center", va="center", **note)
    times = 1000 * seen.seconds * (np.arange(len(seen.at_full)) + 0.5) / len(seen.at_full)
    if seen.at_full.any():
        ticks = ax.vlines(times[seen.at_full > 0], 1.01, 1.045, color="black", lw=1, transform=ax.get_xaxis_transform())
        ticks.set(clip_on=False, in_layout=False)
    ax.set(xlabel="ms")
    ax.grid(False)
    ax.set_title("The file as recorded" + ("; ticks: clipped samples" if seen.at_full.any() else ""), pad=9)
    ax.figure.colorbar(image, ax=ax, label="dBFS in 15 kHz", pad=0.01)


def draw_mean_spectrum(ax: Any, view: View, scale: float, centre: float) -> None:
    """Draws the mean and the maximum power of each 15 kHz."""
    places = centre + view.seen.frequencies / scale
    greatest, mean = (10 * np.log10(part + 1e-20) for part in (view.seen.power.max(1), view.seen.power.mean(1)))
    ax.plot(greatest, places, ls=":", lw=0.9, color=COLOURS[5], label="maximum")
    ax.plot(mean, places, lw=1, color=COLOURS[0], label="mean")
    ax.axhspan(centre + (view.carrier - BAND) / scale, centre + (view.carrier + BAND) / scale, color="#eeeeee")
    ax.set(xlim=SCALE, xlabel="dBFS in 15 kHz", xticks=range(-120, 1, 30))
    ax.legend(loc="lower center", bbox_to_anchor=(0.5, 1), ncol=2, frameon=False, fontsize=7.5, borderaxespad=0.1)
    if view.centre:
        ax.axhline(centre + view.carrier / scale, color="black", lw=0.6, ls=":")
        name = f"cell: {carrier_text(round(view.centre + view.carrier, -2))}"
        box = {"facecolor": "#eeeeee", "lw": 0, "pad": 1}
        keys = {"fontsize": 7, "va": "center", "clip_on": True, "bbox": box, "transform": ax.get_yaxis_transform()}
        ax.text(0.03, centre + view.carrier / scale, name, **keys)


# ---- hits


def draw_metric(ax: Any, view: View) -> None:
    """Draws how much of the energy is the primary signal, the greatest in each column, and the hits."""
    energy, by_n2 = reference.metrics(view.samples)
    energy = np.array(energy, float)
    starts = np.arange(0, len(energy), BINS)
    ends = np.minimum(starts + BINS, len(energy))
    places = (reference.FIRST + (starts + ends) / 2) / radio.RATE * 1000
    for n2, (power, peak) in enumerate(by_n2):
        part = np.divide(np.array(peak, float), energy * power, out=np.zeros(len(energy)), where=energy > 0)
        part = np.maximum.reduceat(part, starts)
        ax.plot(
            places, 100 * part, LINES[n2], lw=0.8, color=COLOURS[n2], label=f"N2 = {n2} (root {radio.PSS_ROOTS[n2]})"
        )
    ax.axhline(25, color="#b8383d", ls=(0, (6, 3)), lw=1, label="threshold 25 %")
    draw_hits(ax, view)
    ax.set(
        xlim=(1000 * reference.FIRST / radio.RATE, 1000 * LAST / radio.RATE), ylim=(0, 150), yticks=range(0, 101, 25)
    )
    ax.set(xlabel="ms (one frame is searched)", ylabel="% of 128 samples' energy", xticks=range(1, 11))
    ax.set_title("PSS correlation: fraction of the energy")
    lines, _ = ax.get_legend_handles_labels()
    triangle: dict[str, Any] = {"marker": "v", "ls": "", "ms": 6, "color": "#444444"}
    lines.append(Line2D([], [], **triangle, label="hit of a listed cell,\nnamed by its list"))
    lines.append(Line2D([], [], **triangle, mfc="white", label="hit of no listed cell"))
    lines.append(Line2D([], [], ls="", label="?  PCI of two detections,\n    not listed"))
    lines.append(Line2D([], [], ls="", label="unlabelled: uncertain"))
    ax.legend(handles=lines, loc="upper left", bbox_to_anchor=(1.005, 1.05), frameon=False, fontsize=7.5)


def draw_hits(ax: Any, view: View) -> None:
    """Draws the detections: a full triangle is a hit whose cell is listed, an empty one another; the strongest are named."""
    hits = sorted(view.hits, key=lambda hit: -share_of(hit))
    for hit in hits:
        colour = COLOURS[hit.n2]
        face = colour if view.cell_of(hit) else "white"
        ax.plot(milliseconds(hit), share_of(hit), "v", ms=6, mec=colour, mfc=face, zorder=3)
    named = sorted([hit for hit in hits if view.name_of(hit)][:LABELS], key=lambda hit: hit.t)
    rows: list[float] = []
    for hit in named:
        place = milliseconds(hit)
        row = next((i for i, last in enumerate(rows) if place - last > 0.9), len(rows))
        rows[row : row + 1] = [place]
        if row < 4:
            side = "left" if place < 0.5 else "right" if place > 9.6 else "center"
            ax.annotate(view.name_of(hit), (place, 111 + 12 * row), ha=side, fontsize=8)


def share_of(hit: Identity) -> float:
    return 100 * hit.peak / (hit.energy * hit.power)


def milliseconds(hit: Identity) -> float:
    return 1000 * hit.t / radio.RATE


# ---- a cell


class Reading(NamedTuple):
    """How a master block was read: frames added, the first of them, its phase, and by coded bit how much is for it."""

    frames: int
    frame: int
    phase: int
    agreement: list[int]
    cost: int
    total: int


def reading_of(view: View, line: Cell) -> Reading:
    """Returns how it was read, by the frames that `evidence` gives, with the reference implementation's values."""
    rule, support = BY_RULE[str(line.rule)], view.evidence(line)
    identity, at = line.identity, line.at
    frames, frame, phase = support.frames, support.frame, support.phase
    values = [reference.broadcast_values(view.samples, identity, at, j, rule) for j in range(frame, frame + frames)]
    sequence = reference.pseudo_random(identity, 1920)
    flat: list[int] = sum(values, [])
    first = rule.size * phase
    plain = [-value if bit else value for value, bit in zip(flat, sequence[first:])]
    order = reference.coded_reading(40)
    sums = reference.added(plain, order, first)
    cost, word = reference.least(sums)
    bits = reference_cell.convolutional([word >> 39 - k & 1 for k in range(40)], 120)
    agreement = [sums[place][stream] * (1 - 2 * bit) for (place, stream), bit in zip(order, bits)]
    return Reading(frames, frame, phase, agreement, cost, sum(map(abs, agreement)))


def draw_points(ax: Any, values: Sequence[int]) -> None:
    """Draws the broadcast channel's elements, each by the values of its two bits."""
    ax.plot(values[0::2], values[1::2], ".", ms=3.5, mew=0, color=COLOURS[0])
    ax.axhline(0, color="#555555", lw=0.6)
    ax.axvline(0, color="#555555", lw=0.6)
    ax.set(xlim=(-134, 134), ylim=(-134, 134), xticks=(-127, 0, 127), yticks=(-127, 0, 127))
    ax.set(xlabel="soft value, bit 0", ylabel="soft value, bit 1")
    ax.set_title("PBCH constellation")
    ax.set_aspect("equal", anchor="W")


class Port(NamedTuple):
    """The channel of an antenna port at its reference signals."""

    kilohertz: list[float]
    size: Real  # dBFS
    phase: Real  # degrees


def ports_of(view: View, symbols: Any, identity: int, rule: Any) -> list[Port]:
    seen = [row.seen for row in symbols]
    ports = []
    for port in range(rule.ports):
        places = [k for _, k in reference.reference_places(identity, 1, port, rule)]
        pilots = np.array([complex(*pilot) for pilot in reference.pilots_of(seen, identity, 1, port, rule)[1]])
        size = 20 * np.log10(np.abs(pilots) / np.hypot(90, 90) / (512 * view.full) + 1e-12)
        ports.append(Port([15 * reference.FREQUENCY[k] for k in places], size, np.degrees(np.angle(pilots))))
    return ports


def draw_channel(
    figure: Any, place: Any, view: View, symbols: Any, identity: int, rule: Any = reference.ONE_PORT
) -> None:
    """Draws magnitude and phase of the channel at the places of the reference signals, of each antenna port apart."""
    ports = ports_of(view, symbols, identity, rule)
    rows, columns = {1: (1, 1), 2: (2, 1), 4: (2, 2)}[len(ports)]
    axes = (
        place.subgridspec(rows, columns, wspace=0.03, hspace=0.05)
        .subplots(sharex=True, sharey=True, squeeze=False)
        .ravel()
    )
    sizes = np.concatenate([port.size for port in ports])
    middle, reach = (sizes.min() + sizes.max()) / 2, 1.1 * max(6, (sizes.max() - sizes.min()) / 2)
    small: dict[str, Any] = {"fontsize": 7.5} if rows > 1 else {}
    for i, (ax, port) in enumerate(zip(axes, ports)):
        phases = ax.twinx()
        ax.plot(port.kilohertz, port.size, "-o", ms=2.5, lw=1, color=COLOURS[0])
        phases.plot(port.kilohertz, port.phase, "x", ms=3.5, color=COLOURS[1])
        ax.set(xlim=(-BAND / 1000, BAND / 1000), ylim=(middle - reach, middle + reach), xticks=range(-300, 301, 300))
        ax.yaxis.set_major_locator(MaxNLocator(4))
        phases.set(ylim=(-198, 198), yticks=range(-180, 181, 90 * rows))
        phases.grid(False)
        if i % columns == 0:
            ax.set_ylabel("magnitude, dBFS (line)", color=COLOURS[0], **small)
        if i % columns == columns - 1:
            phases.set_ylabel("phase, degrees (x)", color=COLOURS[1], **small)
        else:
            phases.tick_params(right=False, labelright=False)
        if i >= len(ports) - columns:
            ax.set_xlabel("kHz")
        if rows > 1:
            box = {"facecolor": "white", "lw": 0, "pad": 1, "alpha": 0.8}
            phases.text(0.02, 0.95, f"port {i}", va="top", fontsize=7.5, transform=ax.transAxes, bbox=box)
    axes[0].set_title("Channel, at the reference signals of slot 1")


def draw_values(ax: Any, reading: Reading) -> None:
    """Draws how much each of the 120 sums speaks for its bit of the word, and against it."""
    reach = max(1, max(abs(value) for value in reading.agreement))
    edges = np.linspace(-reach, reach, 42)
    values = np.array(reading.agreement)
    for part, colour, name in ((values >= 0, COLOURS[2], "agree"), (values < 0, COLOURS[4], "disagree")):
        ax.hist(values[part], edges, color=colour, label=name, histtype="stepfilled")
    ax.set(xlabel="sum of a coded bit's soft values", ylabel="coded bits of 120")
    ax.set_xlim(-1.03 * reach, 1.03 * reach)
    ax.set_title(f"MIB soft bits: {reading.cost:,} of {reading.total:,} disagree")
    ax.legend(loc="upper left", frameon=False, fontsize=7.5)


def draw_nothing(ax: Any, text: str) -> None:
    """Draws lines of text alone, whose length moves no other panel."""
    ax.axis("off")
    ax.text(0, 1, text, va="top", ha="left", transform=ax.transAxes, linespacing=1.4).set_in_layout(False)


def draw_cell(figure: Any, view: View, line: Cell) -> None:
    """Draws a row of four panels."""
    reading, rule = reading_of(view, line), BY_RULE[str(line.rule)]
    identity, at = line.identity, line.at
    start = at + reference.FRAME * reading.frame
    figure.suptitle(title_of(line), x=0.005, ha="left", fontsize=10, fontweight="bold")
    places = row_of(figure)
    draw_points(
        figure.add_subplot(places[0]), reference.broadcast_values(view.samples, identity, at, reading.frame, rule)
    )
    symbols = reference.slot_values(view.samples, start, identity, 1, rule)
    draw_channel(figure, places[1], view, symbols, identity, rule)
    draw_values(figure.add_subplot(places[2]), reading)
    draw_nothing(figure.add_subplot(places[3]), "\n".join(fields_of(view, line, reading)))


def draw_hit(figure: Any, view: View, hit: Identity) -> None:
    """Draws the strongest detection, of which no cell is listed."""
    identity, at = hit.identity, hit.at
    name = view.name_of(hit) or "its identity is not sure"
    figure.suptitle(f"The strongest hit, of no listed cell: {name}", x=0.005, ha="left", fontsize=10, fontweight="bold")
    places = row_of(figure)
    values = reference.broadcast_values(view.samples, identity, at, 0, reference.ONE_PORT)
    draw_points(figure.add_subplot(places[0]), values)
    draw_channel(figure, places[1], view, reference.slot_values(view.samples, at, identity, 1), identity)
    draw_nothing(figure.add_subplot(places[2]), "no master block:\nno sums of values")
    text = f"By the normal prefix it tells PCI {identity},\nfrom sample {at:,} on. No list has it."
    draw_nothing(figure.add_subplot(places[3]), text)


def row_of(figure: Any) -> Any:
    return figure.add_gridspec(1, 4, width_ratios=(1, 2.4, 1.2, 1.4))


def title_of(line: Cell) -> str:
    """Returns a cell as a line: identity, networks and cell."""
    sib1, text = line.sib1, f"PCI {line.identity}"
    if sib1 is None:
        return f"{text}: no SIB1"
    names = sib1.networks
    more = f" and {len(names) - 3} more" if names[3:] else ""
    return f"{text}: PLMN {' '.join(names[:3])}{more}, TAC {sib1.tac}, cell {sib1.cell}"


def fields_of(view: View, line: Cell, reading: Reading) -> list[str]:
    """Returns the fields of a cell as lines."""
    sib1, support = line.sib1, view.evidence(line)
    lines = [
        f"PCI {line.identity}, rule {line.rule}",
        f"sample {line.at:,} is SFN {line.sfn}",
        f"{line.ports} antenna port{'s' * (line.ports > 1)}, {line.bandwidth[1:]} resource blocks",
        f"PHICH {line.duration} {line.resource}",
        f"br {line.br}, spare {line.spare}",
        "",
    ]
    if sib1 is None:
        lines.append(f"no SIB1: {line.no_sib1}")
    else:
        lines += [
            *textwrap.wrap(f"PLMN {' '.join(sib1.networks)}", FIELD, break_on_hyphens=False),
            f"TAC {sib1.tac}, cell {sib1.cell}",
            f"eNodeB {sib1.enodeb}, its cell {sib1.sector}",
            f"band {sib1.band}, {'barred' if sib1.barred else 'not barred'}",
            f"q-RxLevMin {2 * sib1.q_rx} dBm",
        ]
    lines += ["", f"cost {100 * reading.cost / (reading.total or 1):.1f} %, frames added: {reading.frames}"]
    lines.append(f"level {number_text(view.level(line))} dBFS, S/N {number_text(view.ratio(line))} dB")
    lines.append(f"primary signal {support.peak / 10:.1f} %")
    return lines + [f"? {columns.doubt_text(word)}" for word in view.doubts(line)]


# ---- the sheet


def sheet(view: View, count: int) -> Any:
    """Returns the file, hits, and the first cells, or where there is none the strongest hit."""
    cells = view.cells[:count]
    rows = len(cells) or int(bool(view.hits))
    heights = [2.9, 2.5] + [3.2] * rows
    figure = pyplot.figure(figsize=(WIDTH, sum(heights) + 0.6), layout="constrained")
    parts = figure.subfigures(len(heights), 1, height_ratios=heights)
    more = len(view.cells) - len(cells)
    headed(figure, view.name, view.facts + (f"; {more} further cells are not drawn" if more else ""))
    draw_file(parts[0], view)
    draw_metric(parts[1].subplots(), view)
    for part, line in zip(parts[2:], cells):
        draw_cell(part, view, line)
    if view.hits and not cells:
        draw_hit(parts[2], view, max(view.hits, key=share_of))
    return figure
