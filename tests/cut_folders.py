"""What a crash may leave of a real folder over which a script ran while its calls were written down, and what the program finds there."""

import os
import shutil
from concurrent.futures import ThreadPoolExecutor

from recorded_runs import EVERY_LINE, above

FOLDER = "folder"
# Lines that answer only once all that was accepted before them is safe.
SYNCS = ("keyspace", "delete", "persist", "reopen", "flush")


class File:
    """What a file holds, and what of it is safe."""

    def __init__(self):
        self.now = b""
        self.safe = b""

    def left(self, part):
        """Its bytes behind a crash: its synced bytes and this part of the others."""
        if not self.now.startswith(self.safe):
            return self.now if part else self.safe
        loose = len(self.now) - len(self.safe)
        return self.now[: len(self.safe) + int(loose * part)]

    def parts(self):
        """Its synced bytes and the others. Behind a cut no more is synced than what the file holds still."""
        front = os.path.commonprefix([self.safe, self.now])
        return front, self.now[len(front) :]


class Disk:
    """What stands at each name, and what a crash may bring back there: names in an order in which folders come first."""

    def __init__(self):
        self.names = {}

    def put(self, path, entry):
        older = self.names[path][1] + [self.names[path][0]] if path in self.names else [None]
        self.names[path] = (entry, older)

    def take(self, call):
        """A call is done."""
        if call.name == "create":
            self.put(call.path, File())
        elif call.name == "mkdir":
            self.put(call.path, FOLDER)
        elif call.name == "remove":
            self.put(call.path, None)
        elif call.name == "write":
            self.names[call.path][0].now += bytes.fromhex(call.given)
        elif call.name == "cut":
            file = self.names[call.path][0]
            file.now = file.now[: int(call.given)]
        elif call.name == "list":
            pass
        elif isinstance(self.names.get(call.path, (FOLDER,))[0], File):
            file = self.names[call.path][0]
            file.safe = file.now
        else:
            for path, (entry, _) in self.names.items():
                if os.path.dirname(path) == call.path:
                    self.names[path] = (entry, [])

    def picks(self):
        """Which entry of each name comes back: none, each older one alone, and all of the last and of the first ones."""
        yield {}
        for path, (_, older) in self.names.items():
            for entry in older:
                yield {path: entry}
        for place in (-1, 0):
            yield {path: older[place] for path, (_, older) in self.names.items() if older}

    def stands(self, pick):
        """The entries that come back, each in a folder that does."""
        found = {}
        for path, (entry, _) in self.names.items():
            entry = pick.get(path, entry)
            above = os.path.dirname(path)
            if entry is not None and (above not in self.names or found.get(above) is FOLDER):
                found[path] = entry
        return found

    def left(self, pick, part, apart=()):
        """What a crash leaves: bytes of files, and folders. Some files keep another part."""
        parts = dict(apart)
        return {path: FOLDER if entry is FOLDER else entry.left(parts.get(path, part)) for path, entry in self.stands(pick).items()}

    def loose(self):
        """The files that have bytes which aren't synced."""
        return [path for path, entry in self.stands({}).items() if isinstance(entry, File) and entry.parts()[1]]


def build(image, root, place):
    """Makes what a crash left, below another place."""
    for path, entry in image.items():
        path = above(place) + path[len(above(root)):]
        if entry is FOLDER:
            os.mkdir(path)
        else:
            with open(path, "wb") as file:
                file.write(entry)


class Cuts:
    """A script that ran once, and how far its lines had come behind each call."""

    def __init__(self, program, script=EVERY_LINE):
        self.program = program
        self.script = script
        self.root = program.fresh()
        whole = program.run(self.root, script, {})
        assert whole.status == 0 and "error 0 BadLine" not in whole.answers, whole
        # Each flush of it syncs the journal.
        assert all(whole.answers[at] == "true" for at, line in enumerate(script) if line.startswith("flush")), whole.answers
        self.calls = whole.calls
        self.ends = [self.end_of(count) for count in range(len(script) + 1)]
        self.wanted = [program.wanted(script[:count]) for count in range(len(script) + 1)]
        self.seen = {}

    def end_of(self, count):
        """How many calls the opening and the first lines make. A closing makes one more, the sync of the journal."""
        place = self.program.fresh()
        calls = self.program.run(place, self.script[:count], {}).calls
        closing = calls[-1:] if calls[-1].name == "sync" and calls[-1].path.endswith(".jnl") else []
        told = [(call.name, call.path[len(above(place)):]) for call in calls[: len(calls) - len(closing)]]
        assert told == [(call.name, call.path[len(above(self.root)):]) for call in self.calls[: len(told)]], count
        return len(told)

    def found(self, image):
        """What the program finds in a folder that a crash left: the answers of one that opens, or how it is refused."""
        place = self.program.fresh()
        build(image, self.root, place)
        answers = self.program.probed(place)
        shutil.rmtree(above(place))
        return answers

    def is_right(self, found, wanted):
        """Whether what was found is as one of these is."""
        return found in wanted

    def wrong(self, number, key):
        """What is wrong with a folder that a crash behind the call of this number left."""
        safe = max([0] + [at for at, end in enumerate(self.ends) if end <= number and at and self.script[at - 1].startswith(SYNCS)])
        last = max([0] + [at for at in range(1, len(self.ends)) if self.ends[at - 1] <= number])
        if self.is_right(self.seen[key], self.wanted[safe : last + 1]):
            return None
        return f"behind call {number}, lines {safe} to {last}: {self.seen[key]}"

    def left(self, disk):
        """The folders that a crash may leave of a disk."""
        for pick in disk.picks():
            for part in (0, 0.5, 1):
                yield disk.left(pick, part)
        for path in disk.loose():
            for part in (0, 0.25, 0.5, 0.75, 1):
                yield from (disk.left({}, others, {path: part}) for others in (0, 1))

    def folders(self, is_kept, left):
        """The folders behind each call, once each, where only the calls that are kept are done."""
        disk = Disk()
        for number, call in enumerate(self.calls, 1):
            if is_kept(call):
                disk.take(call)
            for key in dict.fromkeys(tuple(sorted(image.items())) for image in left(disk)):
                yield number, key

    def check(self, is_kept=lambda call: True, left=None):
        """How many folders there are, and what is wrong with them."""
        folders = list(self.folders(is_kept, left or self.left))
        new = list(dict.fromkeys(key for _, key in folders if key not in self.seen))
        with ThreadPoolExecutor(os.cpu_count()) as pool:
            self.seen.update(zip(new, pool.map(self.found, map(dict, new))))
        wrong = [self.wrong(*folder) for folder in folders]
        return len(folders), [told for told in wrong if told]

    def check_without(self, is_done, left=None):
        """The same where the calls are struck that this doesn't keep."""
        files = {call.path for call in self.calls if call.name == "create"}
        return self.check(lambda call: is_done(call, files), left)


# What is left out, and whether a call is done all the same, where these paths are of files.
STRUCK = {
    "syncs of files": lambda call, files: call.name != "sync" or call.path not in files,
    "syncs of folders": lambda call, files: call.name != "sync" or call.path in files,
    "syncs of the journal": lambda call, files: call.name != "sync" or not call.path.endswith(".jnl"),
}
