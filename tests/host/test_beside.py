#!/usr/bin/python3
"""Processes side by side: what comes of tasks, what a process raises, that one was killed, and that none is left."""
import contextlib
import os
import signal
import subprocess
import sys
import time
import unittest
from multiprocessing.context import ForkProcess as Process
from pathlib import Path
from unittest import mock

sys.dont_write_bytecode = True
TOP = Path(__file__).resolve().parent.parent.parent
sys.path.insert(0, str(TOP))
from host.beside import COUNT, side_by_side  # noqa: E402


def runs(process):
    path = Path(f"/proc/{process}/stat")
    return path.exists() and path.read_text().rpartition(")")[2].split()[0] != "Z"


class SideBySide(unittest.TestCase):
    def ends(self, tasks, do):
        with contextlib.closing(side_by_side(tasks, lambda: do)) as ends:
            return list(ends)

    def test_outcomes(self):
        """As many processes as tasks, at most four, each with state of its own."""
        for count in (0, 1, 3, COUNT, 20):
            found = self.ends(range(count), lambda task: (task * task, os.getpid()))
            self.assertEqual(sorted((task, square) for task, (square, _) in found), [(task, task * task) for task in range(count)])
            self.assertLessEqual(len({process for _, (_, process) in found}), COUNT)
            self.assertNotIn(os.getpid(), {process for _, (_, process) in found})
            self.assertFalse([process for _, (_, process) in found if runs(process)])

    def test_what_is_raised(self):
        for raised in (OSError(28, "no space"), ValueError("x"), MemoryError()):
            def do(task, raised=raised):
                if task == 5:
                    raise raised
                return task
            with self.assertRaises(type(raised)) as seen:
                self.ends(range(9), do)
            self.assertEqual(seen.exception.args, raised.args)
            with self.assertRaises(type(raised)), contextlib.closing(side_by_side(range(9), mock.Mock(side_effect=raised))) as ends:
                list(ends)

    def test_one_that_cannot_be_started(self):
        """The others end, and nothing else does: not the group of the command, which killpg(0) would be."""
        seen, start = [], Process.start

        def second(process):
            seen.append(process)
            if len(seen) == 2:
                raise OSError(24, "too many")
            start(process)

        with mock.patch.object(Process, "start", second), mock.patch("os.killpg", side_effect=ProcessLookupError) as kill:
            self.assertRaises(OSError, self.ends, range(9), time.sleep)
        self.assertEqual([call.args[0] for call in kill.call_args_list], [seen[0].pid])
        self.assertFalse(runs(seen[0].pid))

    def test_one_that_was_killed(self):
        self.assertRaises(EOFError, self.ends, range(9), lambda task: task == 6 and os.kill(os.getpid(), signal.SIGKILL))

    def test_none_is_left(self):
        """Also if the outcomes are not all waited for, and what the processes have started is killed with them."""
        def do(task):
            started = subprocess.Popen(["sleep", "60"])
            return [started.pid, os.getpid()]
        with contextlib.closing(side_by_side(range(20), lambda: do)) as ends:
            found = [next(ends)[1] for _ in range(6)]
        time.sleep(0.2)
        self.assertFalse([process for pair in found for process in pair if runs(process)])

    def test_they_end_with_the_command(self):
        """Though it is killed in the middle, and ignores nothing of what it was started with."""
        script = ("import sys, os, time; sys.path.insert(0, sys.argv[1])\nfrom host.beside import side_by_side\n"
                  "def do(task):\n    os.write(1, b'%d\\n' % os.getpid())\n    time.sleep(60)\nlist(side_by_side(range(4), lambda: do))")
        with subprocess.Popen([sys.executable, "-B", "-c", script, TOP], stdout=subprocess.PIPE) as command:
            processes = [int(command.stdout.readline()) for _ in range(4)]
            self.assertTrue(all(map(runs, processes)))
            command.kill()
        until = time.monotonic() + 5
        while any(map(runs, processes)) and time.monotonic() < until:
            time.sleep(0.01)
        self.assertFalse(any(map(runs, processes)))

    def test_a_terminal_interrupts_the_command_alone(self):
        self.assertNotIn(os.getsid(0), {session for _, session in self.ends(range(3), lambda _: os.getsid(0))})


if __name__ == "__main__":
    unittest.main(warnings="ignore")  # of processes that are killed with the one that started them
