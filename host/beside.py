"""Processes side by side, each with an interpreter of its own: they do one task after another, and end with the command."""
import contextlib
import fcntl
import gc
import itertools
import os
import signal
from typing import TYPE_CHECKING, Callable, Generator, Iterable, TypeVar

from host.network import SIGNALS, uninterrupted
from host.terminal import progress

if TYPE_CHECKING:
    from multiprocessing.connection import Connection

COUNT = 4
Task = TypeVar("Task")
Outcome = TypeVar("Outcome")
Begin = Callable[[], Callable[[Task], Outcome]]  # what a process begins with, and does for each task


def side_by_side(tasks: Iterable[Task], begin: Begin[Task, Outcome], count: int = COUNT) -> Generator[tuple[Task, Outcome], None, None]:
    """Each task with its outcome, as they end. Raises what a process raised, and EOFError if one was killed. However it ends, none of them is left."""
    from multiprocessing import connection, get_context  # which take a while, and only this needs
    context, waiting, processes, ways, done = get_context("fork"), iter(tasks), [], dict["Connection", Task](), False
    try:
        gc.freeze()  # so that the processes share the memory of what is loaded
        with uninterrupted():  # until a process has its own way of ending
            for task in itertools.islice(waiting, count):
                ours, theirs = context.Pipe()
                process = context.Process(target=worked, args=(theirs, task, begin), daemon=True)
                process.start()
                processes.append(process)
                theirs.close()
                ways[ours] = task
        while ways:
            for way in connection.wait([*ways]):
                assert isinstance(way, connection.Connection)
                outcome, task = way.recv(), ways.pop(way)
                if isinstance(outcome, Exception):
                    raise outcome
                for following in itertools.islice(waiting, 1):
                    way.send(following)
                    ways[way] = following
                yield task, outcome
        done = True
    except ConnectionError as error:
        raise EOFError from error
    finally:
        for process in processes:
            with contextlib.suppress(ProcessLookupError):
                assert process.pid  # it was started; the group 0 is the one of the command
                os.killpg(process.pid, signal.SIGKILL)  # with its cores
            process.kill()
            process.join()
        if not done:
            progress.clear()


def worked(way: "Connection", task: Task, begin: Begin[Task, Outcome]) -> None:
    """In a process: does task after task, until the command wants no more, or is gone."""
    from multiprocessing import parent_process
    os.setsid()  # so that Ctrl-C reaches the command alone
    for number in SIGNALS:
        signal.signal(number, signal.SIG_DFL)
    signal.pthread_sigmask(signal.SIG_UNBLOCK, SIGNALS)
    command = parent_process()
    assert command
    fcntl.fcntl(command.sentinel, fcntl.F_SETOWN, os.getpid())
    fcntl.fcntl(command.sentinel, fcntl.F_SETFL, os.O_ASYNC)  # SIGIO, which ends this process, once the command is gone
    with contextlib.suppress(EOFError):
        do: Callable[[Task], Outcome] | None = None
        while True:
            try:
                do = do or begin()
                outcome: Outcome | Exception = do(task)
            except Exception as error:  # which is raised where it is waited for
                outcome = error
            way.send(outcome)
            task = way.recv()
