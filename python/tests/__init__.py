"""Tests of lte_tools and lte_reference; those of lte_gate are in gate/."""
