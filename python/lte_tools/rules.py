"""The four rules by which lte_cli lists cells: one antenna port, two, the extended cyclic prefix, and four."""
from __future__ import annotations

from dataclasses import dataclass


@dataclass(frozen=True)
class Rule:
    """A rule of a list, and what its evidence is made of (docs/FORMATS.md, "evidence")."""

    name: str  # as JSON has it
    arguments: tuple[str, ...]  # of `lte_cli search` and `lte_cli evidence`
    ports: int  # antenna ports whose reference signals are measured
    announced: int | None  # antenna ports of the MIB whose SIB1 this rule is made for; none has two rules
    later: int  # samples from pilots in the first symbol of a slot to those in a later one
    powers: int  # reference elements that `power` of `evidence` adds up
    noises: int  # second differences that `noise` of `evidence` adds up
    meaning: str

    @property
    def evidence(self) -> tuple[str, ...]:
        """The arguments of `lte_cli` for the evidence of this rule's list, as JSON."""
        return ("evidence", *self.arguments, "--json")


ONE_PORT = Rule("one-port", (), 1, 1, 548, 24, 20, "one antenna port, normal prefix")
TWO_PORTS = Rule("two-ports", ("--ports", "2"), 2, 2, 548, 48, 40, "two antenna ports, normal prefix")
LONG_PREFIX = Rule("long-prefix", ("--prefix", "long"), 1, None, 480, 24, 20, "one antenna port, extended prefix")
FOUR_PORTS = Rule("four-ports", ("--ports", "4"), 4, 4, 548, 96, 60, "four antenna ports, normal prefix")

RULES = (ONE_PORT, TWO_PORTS, LONG_PREFIX, FOUR_PORTS)
BY_NAME = {rule.name: rule for rule in RULES}


def reads(rule: str, ports: int) -> bool:
    """Returns whether the rule of this name is made for a cell that announces `ports` antenna ports."""
    return BY_NAME[rule].announced == ports
