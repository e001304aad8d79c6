"""Figures, each with its goal."""
import subprocess
import sys
from typing import NamedTuple

# A goal counts as missed from this multiple of it on: times vary from run to run.
SLACK = 1.1


class Figure(NamedTuple):
    """What was measured, its value, what that is a multiple or a number of, and the most that it should be."""
    name: str
    value: float
    unit: str
    goal: float | None = None

    @property
    def is_missed(self):
        return self.goal is not None and self.value > SLACK * self.goal

    def __str__(self):
        goal = "" if self.goal is None else f"{self.goal:g}"
        return f"{self.value:7.2f} {goal:>5}{' !' if self.is_missed else '  '} {self.name}: {self.unit}"


def page(*measures):
    """Prints the figures of each measure as it ends. Returns 1 if a goal is missed or a measure fails, else 0."""
    print("  value  goal   figure: what it is a multiple or a number of", flush=True)
    missed = failed = 0
    for measure in measures:
        try:
            for figure in measure():
                missed += figure.is_missed
                print(figure, flush=True)
        except (OSError, SystemExit, ValueError, subprocess.SubprocessError) as error:
            failed += 1
            print(f"      -      ! {measure.__module__}: {error}", flush=True)
    print(f"goals missed by more than a tenth: {missed}; measures that failed: {failed}", file=sys.stderr)
    return 1 if missed or failed else 0
