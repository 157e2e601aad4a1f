"""Runs sweeps, each in parts beside one another, and tells of each how much it tried and what is wrong."""
import os
import subprocess
import sys
from multiprocessing import Pool
from pathlib import Path
from tempfile import TemporaryDirectory

from sim_inputs import HERE, settings


def failing_run(lines, **variables):
    """A run of the program in which one request for memory is refused."""
    return subprocess.run([settings.program], input='\n'.join(lines).encode(), stdout=subprocess.PIPE, stderr=subprocess.PIPE,
                          env=dict(os.environ, LD_PRELOAD=settings.failing, **variables))


def tried(part):
    """How much a part tried, and what is wrong with it."""
    try:
        return part[0](*part[1:]), None
    except Exception as wrong:
        return 0, '%s(%s): %s' % (part[0].__name__, ', '.join(repr(word)[:100] for word in part[1:]), wrong)


def run(pool, name, what, least, parts):
    """Runs a sweep; answers how many of its parts are right, and how many wrong."""
    found = pool.map(tried, parts, chunksize=1)
    wrong = [text for _, text in found if text]
    count = sum(count for count, _ in found)
    if count < least and not wrong:
        wrong.append('%d %s are fewer than %d' % (count, what, least))
    for text in wrong[:3]:
        print('%s: %s' % (name, text))
    print('%s: %d %s%s' % (name, count, what, ', %d WRONG' % len(wrong) if wrong else ''), flush=True)
    return len(found) - len(wrong), len(wrong)


def run_all(sweeps, usage):
    """Runs all sweeps, or those whose names have one of the words; answers the status. `sweeps` makes them, whole or not: each a
    name, what it counts and how much at least, and its parts, each a function with its arguments."""
    if len(sys.argv) < 2:
        sys.exit(usage)
    words = [word for word in sys.argv[2:] if word != '--whole']
    settings.program = str(Path(sys.argv[1]).resolve())
    passed = failed = 0
    with TemporaryDirectory() as work:
        settings.failing = work + '/failing.so'
        subprocess.run(['cc', '-O2', '-shared', '-fPIC', '-o', settings.failing, HERE / 'failing_allocation.c'], check=True)
        with Pool(len(os.sched_getaffinity(0))) as pool:
            for sweep in sweeps('--whole' in sys.argv):
                if not words or any(word in sweep[0] for word in words):
                    right, wrong = run(pool, *sweep)
                    passed, failed = passed + right, failed + wrong
    print('sweeps: %d passed, %d failed' % (passed, failed))
    return 1 if failed or not passed else 0
