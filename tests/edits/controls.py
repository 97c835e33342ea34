#!/usr/bin/env python3
"""controls.py [CRATE ...]: whether the controls of controls/CRATE.control are proved, of all crates where none is named.

A control stands where a slip of a must-fail edit stands and has its shape, but is no slip. Where it is proved, the slip is
refused for what it says and not for its shape. All controls of a crate are put into a copy of the repository and the crate
is checked; where it is refused, each is tried by itself. The controls that are not proved are printed, and the exit status
is 1. Not part of the gate: each crate takes as long as its proof.
"""
import sys

import prover
from check import CONTROLS, controls_of


def is_proved(copy, crate, controls):
    """Whether the crate is proved with these controls."""
    said, status = copy.check(crate, [change for control in controls for change in control.changes])
    if status not in (0, 1):
        sys.exit(f"{crate}: {said}")
    return status == 0


def not_proved(copy, crate):
    controls = controls_of(crate, sys.exit)
    if is_proved(copy, crate, controls):
        return []
    return [f"{crate}/{control.name}" for control in controls if not is_proved(copy, crate, [control])]


def main():
    crates = sys.argv[1:] or sorted(path.stem for path in CONTROLS.glob("*.control"))
    count = sum(len(controls_of(crate, sys.exit)) for crate in crates)
    refused = [name for names in prover.in_copies(not_proved, crates) for name in names]
    for name in refused:
        print(f"{name} is not proved")
    print(f"{count} controls, {len(refused)} not proved")
    return 1 if refused or not count else 0


if __name__ == "__main__":
    sys.exit(main())
