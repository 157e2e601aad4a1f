"""Each request for memory that a list of a script makes is refused in turn, and the call that was refused is made again: it must answer
what it would have answered, and what follows goes on as if nothing had been. A job's end and each line within a transaction come twice in
their list, since no later list can name them; else what was refused comes again behind its list: a commit as its whole transaction."""
import os
import subprocess

from sim_inputs import OPENS, Input, Play, lists_of, number, script_of, settings
from sim_model import BEGINNINGS, ENDINGS, Wrong, same
from sim_transactions import BEGINS, COMMITS, ENDS, WITHIN

# A request for so many bytes, which nothing else makes, begins the part of a run in which requests are counted; one for a byte more ends it.
MARK = 7001


def run(lines, **variables):
    """A run of the program in which requests for memory are counted between the marks: its status, its answers, its errors."""
    told = subprocess.run([settings.program], input='\n'.join(lines).encode(), stdout=subprocess.PIPE, stderr=subprocess.PIPE,
                          env=dict(os.environ, LD_PRELOAD=settings.failing, FAIL_MARK=str(MARK), **variables))
    return told.returncode, told.stdout.decode().split('\n')[:-1], told.stderr.decode()


def doubled(lines):
    """A list in which the end of each job, and each line within a transaction, comes twice."""
    return [one for line in lines for one in [line] * (1 + (line[0] in ENDINGS + WITHIN + ENDS))]


class Repeats(Play):
    """A play in which one list stands between marks; `again` comes behind it, whose openings have these names of the script."""

    def __init__(self, into, script, marked, again=(), names=(), uncounted=-1, is_whole=False):
        self.marked, self.again, self.names, self.uncounted, self.is_whole = marked, again, names, uncounted, is_whole
        self.place = range(0)
        # The names of the openings to come that aren't those of the next openings of the script.
        self.renamed = []
        super().__init__(into, script)

    def mark(self, size):
        """A mark may find no memory itself."""
        for line, due in (('exists 61x%d' % size, 'false'), ('next', 'ok')):
            self.into.say(line, lambda answer, due=due: answer in (due, 'shut') or self.history.meet(answer))

    def take(self, at, lines):
        if lines == [['reopen']]:
            self.reopen(at == self.marked)
        else:
            self.take_list(lines, at == self.marked)

    def take_list(self, lines, is_marked):
        if is_marked:
            self.mark(MARK)
        start = len(self.into.lines)
        for line in doubled(lines):
            self.ask(line)
        end = len(self.into.lines)
        self.end_list()
        if is_marked:
            self.place = range(start, end)
            self.refuse_all()
            self.mark(MARK + 1)
        self.look()
        if is_marked and self.again:
            self.renamed = list(self.names)
            self.take_list(self.again, False)

    def refuse_all(self):
        """Where the whole list was refused nothing of it was tried."""
        if self.is_whole:
            self.into.checks[self.place.start] = self.history.meet
            for place in self.place[1:]:
                self.into.checks[place] = lambda answer: same(answer, 'error 17 OutOfMemory')

    def reopen(self, is_marked):
        """Closes, and opens twice, between marks."""
        self.into.say('close', self.history.closed)
        if is_marked:
            self.mark(MARK)
        start = len(self.into.lines)
        self.open()
        if is_marked:
            self.place = range(start, start + 2)
            self.look_at_opening(start + 1)
            self.mark(MARK + 1)

    def look_at_opening(self, place):
        """Where it is open, the line that says so may find no memory."""
        check, history = self.into.checks[place], self.history
        is_refused = lambda answer: answer.startswith('error 17 ') and history.at_fault is None  # noqa: E731
        self.into.checks[place] = lambda answer: history.meet(answer) if is_refused(answer) else check(answer)

    def is_counted(self):
        """A line that couldn't be read gets no number."""
        return len(self.into.lines) != self.uncounted

    def keep_number(self):
        if self.renamed:
            self.numbers[self.renamed.pop(0)] = self.into.asked
        else:
            super().keep_number()


class Refused:
    """Which lines of a list of a script were refused, and what comes again of them."""

    def __init__(self, name, at):
        script = script_of(name)[0]
        self.lists, self.at = lists_of(script), at
        self.lines = doubled(self.lists[at])
        into = Input()
        into.expect('new', 'ok')
        play = Repeats(into, [line for lines in self.lists[:at + 1] for line in lines], at)
        # Up to the end of the marks, with how many snapshots are open, and one more, whose number tells how many lines got one.
        self.place, self.asked = play.place, into.asked
        end = max(place for place, line in enumerate(into.lines) if line.startswith('exists '))
        self.input = into.lines[:end + 2] + ['count snapshots', 'snapshot']
        _, self.undisturbed, told = run(self.input, FAIL_COUNT='1')
        # How many requests for memory the list makes, with its marks.
        self.requests = int(told.split()[-1])

    def meet(self, request):
        """Makes a request fail. Answers which lines are refused, and the place in the input of one that gets no number; or None where the
        program ended, or nothing was refused."""
        status, told, _ = run(self.input, FAIL_AT=str(request))
        if status == 3:
            return None
        if status or len(told) != len(self.input):
            raise Wrong('status %d, %d answers to %d lines' % (status, len(told), len(self.input)))
        if self.lines[0][0] in ('clone_snapshot', 'close_snapshot') and told[-2] == self.undisturbed[-2]:
            # It was done, and the text of its answer alone found no memory.
            return None
        refused = [place - self.place.start for place in self.place if told[place].startswith('error 17 ')]
        is_lost = number(told[-1]) == self.asked if told[-1].startswith('snapshot ') else False
        return refused, self.place.start + refused[0] if is_lost and refused else -1

    def names(self):
        """The names of the list's openings."""
        before = [line for lines in self.lists[:self.at] for line in lines]
        if ['reopen'] in before:
            before = before[len(before) - before[::-1].index(['reopen']):]
        first = sum(line[0] in OPENS for line in before)
        return range(first, first + sum(line[0] in OPENS for line in self.lists[self.at]))

    def again(self, refused):
        """The lines that come again, and the names of their openings."""
        if len(refused) == len(self.lines):
            return self.lists[self.at], list(self.names())
        line = self.lines[refused[0]]
        word = line[0]
        if word in BEGINS:
            begun = [other for other, one in enumerate(self.lines) if one[0] in BEGINS]
            return self.transaction(self.names()[begun.index(refused[0])], word)
        if word in COMMITS:
            return self.transaction(int(line[1]), 'begin' if word == 'commit' else 'begin_single')
        if word in BEGINNINGS:
            return [line, ['flush_finish' if word == 'flush_begin' else 'merge_finish', line[1]]], []
        if word in ENDINGS + WITHIN + ENDS:
            return [], []
        return [line], list(self.names()) if word in OPENS else []

    def transaction(self, name, word):
        """All lines of the list's transaction of this name."""
        within = [line for line in self.lists[self.at] if line[0] in WITHIN + ENDS and line[1] == str(name)]
        return [[word]] + within, [name]


def repeated(refused, request, met):
    """The play in which that request fails, and what met it comes again."""
    lines, uncounted = met
    into, is_opening = Input(), refused.lists[refused.at] == [['reopen']]
    into.expect('new', 'ok')
    script = [line for lines in refused.lists for line in lines]
    again, names = ((), ()) if is_opening else refused.again(lines)
    Repeats(into, script, refused.at, again, names, uncounted, not is_opening and 1 < len(lines) == len(refused.lines))
    status, told, _ = run(into.lines, FAIL_AT=str(request))
    if status or len(told) != len(into.lines):
        raise Wrong('status %d, %d answers to %d lines' % (status, len(told), len(into.lines)))
    into.check(told)


def repeats(name, at, first, step):
    """Each request, or every so many, that a list makes is refused, and what met it comes again. Answers how many times that was."""
    refused, count = Refused(name, at), 0
    for request in range(first, refused.requests + 1, step):
        try:
            met = refused.meet(request)
            if met and met[0]:
                repeated(refused, request, met)
                count += 1
        except Wrong as wrong:
            raise Wrong('request %d: %s' % (request, wrong)) from None
    return count
