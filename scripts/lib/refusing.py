"""What the scripts that refuse an allocation of a program share: a preloaded library that refuses the allocation with a
given number, runs with it, and attempts that run side by side."""

import concurrent.futures
import contextlib
import os

from lib.usbreg import content, folder, library, run


@contextlib.contextmanager
def refusal():
    """Yields a folder for files of the run, and the library."""
    with folder() as room:
        yield room, library(room, "refuse")


def refusing(shim, refused, counted=None):
    """Returns the variables of a run that is refused the allocation with this number, or none for 0. If a file is named,
    the run writes to it how many allocations it asked for."""
    return {"LD_PRELOAD": shim, "REFUSED": str(refused), **({"COUNTED": counted} if counted else {})}


def run_refused(words, shim, refused, lines=os.devnull, counted=None):
    """Returns status, output and errors of a run that is refused the allocation with this number, or none for 0."""
    return run(words, content(lines), refusing(shim, refused, counted))


def asked_in(words, shim, room, lines=os.devnull):
    """Returns the number of allocations that a run asks for."""
    path = f"{room}/counted"
    run_refused(words, shim, 0, lines, path)
    return int(content(path))


def each(numbers, room, attempt):
    """Returns the results of the attempts with each number, in their order. They run side by side, each batch of them in its
    own folder."""
    batches = len(os.sched_getaffinity(0))

    def batch(first):
        folder = f"{room}/{first}"
        os.makedirs(folder, exist_ok=True)
        return [attempt(number, folder) for number in numbers[first::batches]]

    results = [None] * len(numbers)
    with concurrent.futures.ThreadPoolExecutor(batches) as pool:
        for first, given in enumerate(pool.map(batch, range(batches))):
            results[first::batches] = given
    return results
