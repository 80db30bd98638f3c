"""The tables that a network planner asks of a survey: best server, squares, pilot pollution, neighbours and classes."""
from __future__ import annotations

import functools
from typing import Any, Sequence

from . import best_server, classes, grid, neighbour_table, plan
from .grid import Square
from .options import SurveyOptions
from .survey_data import Survey
from .tables import Report


def reports_of(options: SurveyOptions, survey: Survey, planned: Sequence[plan.Planned]) -> list[Report]:
    """Returns the tables that options ask for."""
    found = []
    if options.servers:
        stretches = best_server.servers_of(survey)
        head = best_server.head_of_servers(stretches, survey.unit)
        found.append(Report("servers", "Best server", head, best_server.COLUMNS, stretches))
    if options.grid is not None:
        squares = grid.squares_of(survey, options.grid)
        head = grid.head_of(squares, options.grid, survey)
        draw = functools.partial(maps_of, squares, survey, planned)
        found.append(Report("grid", "Squares", head, grid.COLUMNS, squares, draw=draw))
    if options.pollution is not None:
        some = best_server.polluted(survey, options.pollution)
        head = best_server.head_of_pollution(some, options.pollution, survey.unit)
        found.append(Report("pollution", "Pilot pollution", head, best_server.COLUMNS, some))
    if options.neighbours:
        pairs = neighbour_table.neighbours_of(survey, plan.names_of(survey, planned))
        head = neighbour_table.head_of(pairs)
        meanings = {"clash": neighbour_table.MEANINGS}
        found.append(Report("neighbours", "Neighbours", head, neighbour_table.COLUMNS, pairs, meanings))
    if options.classes:
        every = classes.classes_of(survey)
        head = f"coverage by class of the best server, of {survey.windows - len(survey.spoiled)} windows"
        found.append(Report("classes", "Classes", head, classes.COLUMNS, every))
    return found


def maps_of(squares: Sequence[Square], survey: Survey, planned: Sequence[plan.Planned]) -> list[tuple[str, Any]]:
    """Returns the maps of each carrier's squares, each with what it shows."""
    from . import picture_grid

    sites = [one.place for one in planned if one.place]
    found = []
    for group in dict.fromkeys(one.group for one in squares):
        own = [one for one in squares if one.group == group]
        says = "Squares: level of the best server, and other cells within 6 dB of it"
        found.append((f"{group}: {says}" if group else says, picture_grid.sheet(own, survey.unit, sites)))
    return found
