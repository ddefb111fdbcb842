"""Checks a bundle, and goes through the failing schedule move by move: python3 step.py < ../../examples/broken-counter.bundle"""
import sys

import lineup

case = lineup.Case.of_bundle(sys.stdin.read())
report = case.check()
print(report.text, end="")
if report.status == 1:
    for state in case.states(report.text):
        print(state.made, state.status, "cells", state.cells, *(f"T{e.thread} {e.kind} {e.value}" for e in state.events[-1:]))
sys.exit(report.status)
