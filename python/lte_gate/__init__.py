"""Checks of this repository, its build and its installation: `scripts/gate.sh NAME` runs the module of that name."""
