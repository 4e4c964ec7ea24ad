"""What bench/python runs: `points FILE` writes the states that are timed, `time FILE ROUNDS` times them with the package that is installed, and
`table NATIVE PLAIN NUMPY` prints what C and the two environments of Python said beside each other."""
from __future__ import annotations

import concurrent.futures
import os
import random
import sys
import time
from array import array
from collections.abc import Callable
from pathlib import Path

POINTS, FEW = 2000, 400


def points(file: str) -> None:
    """States that both doors answer: T, p and rho, one after the other."""
    import makhroeng

    chance, kept = random.Random(1), array("d")
    while len(kept) < 3 * POINTS:
        t, p = chance.uniform(217.0, 523.0), chance.uniform(1e4, 3e7) * chance.choice((1.0, chance.random()))
        try:
            rho = makhroeng.state(T=t, p=p).rho
            makhroeng.state(T=t, rho=rho)
        except makhroeng.Refused:
            continue
        kept.extend((t, p, rho))
    Path(file).write_bytes(kept.tobytes())


def timed(name: str, work: Callable[[], object], rounds: int, clock: Callable[[], float] = time.thread_time, count: int = POINTS) -> None:
    best = float("inf")
    for _ in range(rounds):
        began = clock()
        work()
        best = min(best, clock() - began)
    print(f"{name}\t{best / count * 1e6:.3f}")


def time_all(file: str, rounds: int) -> None:
    from makhroeng import state, states

    read = array("d", Path(file).read_bytes())
    ts, ps, rhos = (read[i::3].tolist() for i in range(3))
    timed("state(T, p)", lambda: [state(T=t, p=p) for t, p in zip(ts, ps)], rounds)
    timed("state(T, rho)", lambda: [state(T=t, rho=rho) for t, rho in zip(ts, rhos)], rounds)
    timed("states(T, p) of lists", lambda: states(ts, ps), rounds)
    try:
        import numpy
    except ModuleNotFoundError:
        held_ts, held_ps = array("d", ts), array("d", ps)
    else:
        held_ts, held_ps = numpy.array(ts), numpy.array(ps)
    timed("states(T, p) of arrays", lambda: states(held_ts, held_ps), rounds)
    # few enough that some round meets no other work on any core, each thread on a core of its own
    cores = sorted(os.sched_getaffinity(0))
    each = FEW // len(cores)
    left = iter(cores)

    def by_pool(pool: concurrent.futures.Executor) -> object:
        return list(pool.map(lambda at: states(held_ts[at:at + each], held_ps[at:at + each]), range(0, FEW, each)))

    timed(f"of {FEW}, by the clock", lambda: states(held_ts[:FEW], held_ps[:FEW]), 10 * rounds, time.perf_counter, FEW)
    with concurrent.futures.ThreadPoolExecutor(len(cores), initializer=lambda: os.sched_setaffinity(0, {next(left)})) as pool:
        timed(f"the same, by {len(cores)} threads", lambda: by_pool(pool), 10 * rounds, time.perf_counter, FEW)


def table(*files: str) -> None:
    columns = [dict(line.split("\t") for line in Path(file).read_text().splitlines()) for file in files]
    print(f"{'us a state':<26}{'C':>10}{'Python':>10}{'numpy':>10}")
    for name in columns[1]:
        print(f"{name:<26}" + "".join(f"{float(column[name]):>10.2f}" if name in column else f"{'-':>10}" for column in columns))


if __name__ == "__main__":
    what, *rest = sys.argv[1:]
    if what == "points":
        points(*rest)
    elif what == "time":
        time_all(rest[0], int(rest[1]))
    else:
        table(*rest)
