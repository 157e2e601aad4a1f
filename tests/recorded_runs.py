"""Runs of the program under recorded_calls.c, and what they have to leave in a folder."""

import os
import shutil
import subprocess
import tempfile
from collections import namedtuple

# Keyspaces that are made, written and deleted, one of them made anew, and one of which gets two tables that are merged; some lines
# sync, and the others don't.
SCRIPT = """keyspace b
keyspace a
insert 1 6b 31
insert 2 6b 32
persist
insert 1 6c 333333333333333333333333333333
remove 1 6b
delete 1
insert 2 6c 3434
rotate 2
flush 2
keyspace b
insert 3 6b 35
remove_weak 2 6c
rotate 2
flush 2
merge 2
reopen
insert 3 6d 3636
insert 2 6b -
persist
insert 2 6e 383838
delete 2
insert 3 6b 39
persist
insert 3 6f 40""".split("\n")

# Behind the lines that each kind of call needs, all others of the program: of each kind of write one that isn't synced, reads of each kind,
# snapshots, transactions, one of which meets another, and a flush of a clear.
EVERY_LINE = SCRIPT + """batch 3 61 31 3 62 32
get 3 61
len 3
snapshot
clear 3
get_at 1 3 61
insert 3 6e 42
begin
begin
tx_get 3 3 63
tx_insert 2 3 63 33
tx_insert 3 3 70 34
commit 2
commit 3
close_snapshot 1
gc
rotate 3
flush 3
keyspace c
batch 3 64 34 3 6e ~ 4 65 353535 3 65 35
insert 4 6b 43
rotate 3
flush 3
merge 3
scan 3
clear 3
insert 3 6f 44""".split("\n")

# What a folder is asked for, so that two that answer alike hold alike.
PROBE = ["scan 1", "scan 2", "scan 3", "scan 4", "keyspace a", "keyspace b"]

Call = namedtuple("Call", "name path given")
# `calls` are those that are counted; `told` has what was opened and closed, too.
Run = namedtuple("Run", "status answers errors calls told")


def find_program(words):
    """The path of the program: the one that is named, or else the one that is proved and built."""
    here = os.path.dirname(os.path.abspath(__file__))
    command = [os.path.join(here, "find-program"), *words[:1]]
    return subprocess.run(command, check=True, stdout=subprocess.PIPE, text=True).stdout.strip()


def above(place):
    """The folder of its own that a place is in."""
    return os.path.dirname(os.path.dirname(place))


class Program:
    """The program, with the words that stand before a place, and a folder for what its runs need."""

    def __init__(self, program, work, *words):
        self.command = [os.path.abspath(program), *words]
        self.work = work
        self.library = os.path.join(work, "recorded_calls.so")
        source = os.path.join(os.path.dirname(os.path.abspath(__file__)), "recorded_calls.c")
        subprocess.run(["cc", "-O2", "-shared", "-fPIC", "-o", self.library, source], check=True)

    def run(self, place, lines, settings=None, behind=()):
        """Runs lines over a place, with words behind it; with settings, under the recorder."""
        environment = dict(os.environ)
        log = None
        if settings is not None:
            log = tempfile.mktemp(dir=self.work)
            environment.update(LD_PRELOAD=self.library, RECORD_BELOW=above(place), RECORD_LOG=log, **settings)
        text = "".join(line + "\n" for line in lines)
        command = [*self.command, place, *behind]
        done = subprocess.run(command, input=text, capture_output=True, text=True, env=environment, timeout=60)
        told = []
        if log and os.path.exists(log):
            with open(log, encoding="utf8") as lines_told:
                for line in lines_told:
                    name, path, given = line.rstrip("\n").split("\t")
                    told.append(Call(name, path.rstrip("/"), given))
            os.remove(log)
        calls = [call for call in told if call.name not in ("open", "close", "read")]
        return Run(done.returncode, done.stdout.split("\n")[:-1], done.stderr.strip(), calls, told)

    def fresh(self):
        """The path of a folder that isn't there yet, nor is the one above it, in a folder of its own."""
        return os.path.join(tempfile.mkdtemp(dir=self.work), "new", "db")

    def fresh_copy(self, place):
        """The path of a copy of a folder, in a folder of its own."""
        copy = self.fresh()
        shutil.copytree(place, copy)
        return copy

    def probed(self, place):
        """What a folder holds, or how it is refused."""
        run = self.run(place, PROBE)
        return run.answers if run.status == 0 else [f"status {run.status}", run.errors]

    def wanted(self, lines):
        """What a folder has to hold once these lines are done: the answers of an engine in memory that is opened again."""
        run = self.run("memory", [*lines, "reopen", *PROBE])
        assert run.status == 0, run.errors
        return run.answers[-len(PROBE):]
