"""Processors that are never halted: a loop of the system's idle class on each, which gives way to all else.

A virtual processor that has nothing to do is halted, and Linux puts a thread that wakes beside another rather than there. So what is measured
beside such loops is what the processors of a machine of one's own would do.
"""
import contextlib
import multiprocessing
import os


def keep_awake(processor):
    """A loop that runs on a processor where nothing else wants to."""
    os.sched_setaffinity(0, {processor})
    os.sched_setscheduler(0, os.SCHED_IDLE, os.sched_param(0))
    while True:
        pass


@contextlib.contextmanager
def awake(is_wanted=True):
    """What keeps the processors from being halted, if it is wanted."""
    loops = [multiprocessing.Process(target=keep_awake, args=(processor,)) for processor in os.sched_getaffinity(0)] if is_wanted else []
    for loop in loops:
        loop.start()
    try:
        yield
    finally:
        for loop in loops:
            loop.kill()
            loop.join()
