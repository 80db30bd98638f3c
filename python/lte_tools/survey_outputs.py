"""What is written of a survey: files of places, windows, packets and a page, and tables with a plan, clashes and coverage."""
from __future__ import annotations

import json
import pathlib
from typing import Any, Callable, Sequence

from . import (
    clashes,
    coverage,
    grid,
    kml,
    machine,
    pcap,
    places,
    plan,
    planner_reports,
    survey_table,
    survey_windows,
    tables,
)
from .machine import Refused
from .options import SurveyOptions
from .survey_data import Survey
from .tables import Report


def planned_of(options: SurveyOptions) -> list[plan.Planned]:
    """Returns the cells of the plan that options name, if they do."""
    return plan.read(options.plan) if options.plan else []


def reports_of(options: SurveyOptions, survey: Survey, planned: Sequence[plan.Planned]) -> list[Report]:
    """Returns the tables that options ask for."""
    found = []
    if options.plan:
        findings = plan.findings_of(survey, planned)
        head = f"{options.plan}: {plan.summary(findings)}"
        found.append(Report("plan", "Plan", head, plan.COLUMNS, findings, {"plan": plan.meanings()}))
    if options.clashes is not None:
        head = f"cells within {options.clashes:g} dB in the same windows"
        pairs = clashes.clashes_of(survey, options.clashes)
        found.append(Report("clashes", "Clashes", head, clashes.COLUMNS, pairs, {"clash": clashes.MEANINGS}))
    if options.coverage:
        parts = coverage.coverage_of(survey, coverage.Limits(*options.coverage))
        found.append(Report("coverage", "Coverage", coverage.head_of(survey, parts), coverage.COLUMNS, parts))
    return found + planner_reports.reports_of(options, survey, planned)


def text_of(options: SurveyOptions, survey: Survey, planned: Sequence[plan.Planned] = ()) -> str:
    """Returns what goes to standard output: the table with further ones below, one of them as CSV, or all as JSON."""
    reports = reports_of(options, survey, planned)
    if options.json:
        more = {one.key: [row.to_json() for row in one.rows] for one in reports}
        return json.dumps({**survey.to_json(), **more}, sort_keys=True, separators=(",", ":")) + "\n"
    if not options.csv:
        lines = [line for one in reports for line in one.lines(survey)]
        return "\n".join(map(machine.plain, [*survey_table.table_of(survey), *lines])) + "\n"
    if not reports:
        return survey_table.csv_of(survey)
    return tables.csv_of(reports[0].columns, reports[0].rows, survey)


def write(options: SurveyOptions, survey: Survey) -> None:
    """Writes the files that options name, except the page; refuses files of places for a survey that was made before
    without a track."""
    for out, name in ((options.geojson, "geojson"), (options.kml, "kml")):
        if out and options.is_survey and survey.track is None:
            raise Refused(f"{survey.file}: no track in it, and --{name} needs places")
    writers: tuple[tuple[pathlib.Path | None, Callable[[Survey], bytes]], ...] = (
        (options.csv_windows, lambda found: survey_windows.csv_of(found).encode(errors="surrogateescape")),
        (options.geojson, lambda found: places.geojson_text(found, squares_of(options, found))),
        (options.kml, kml.of_survey),
    )
    for out, content in writers:
        if out:
            machine.write(out, content(survey))
    if options.pcap:
        pcap.write(options.pcap, pcap.of_survey(survey, options.earfcn))


def squares_of(options: SurveyOptions, survey: Survey) -> list[dict[str, Any]]:
    """Returns the squares that options ask for, as features of GeoJSON."""
    return [] if options.grid is None else grid.features_of(grid.squares_of(survey, options.grid), survey.unit)


def write_page(options: SurveyOptions, survey: Survey, planned: Sequence[plan.Planned] = ()) -> None:
    """Writes the page with the tables that options ask for, if they name a page."""
    if options.html:
        from . import survey_page

        survey_page.write(options.html, survey, reports_of(options, survey, planned))
