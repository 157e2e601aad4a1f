"""Lives of engines one after another on one disk, which fjall-sim runs by one call of `live`: those of a script, each up to where the script
opens its database anew. A call of the disk fails in one of them, the power goes behind it, and two lives more read everything, between which
the power goes again. What the first of these reads stands for a beginning of the commands, with all that a sync followed, and so does the
second, of all that the first one read."""
from sim_inputs import END, Input, Play, answers, asked, number, script_of
from sim_model import BEGINNINGS, ENDINGS, History, Wrong, fold, is_begun, pairs_text, same

# No journal and no record has so many unsynced bytes where the power goes in these scripts; tables have, which nothing names.
LONGEST = 430


def lives_in(name):
    """The lines of each life of a script."""
    lives = [[]]
    for line in script_of(name)[0]:
        if line == ['reopen']:
            lives.append([])
        else:
            lives[-1].append(line)
    return lives


class LivingHistory(History):
    """What a database took by lives, the last of which may be refused as a whole."""
    # The refusal; and of each keyspace and kind of jobs whether the life's last line that begins one has begun one.
    refusal, begun = None, {}

    def begin(self, answer):
        """Takes what the beginning of a life was answered; the one before it was closed."""
        self.begun = {}
        if answer == 'ok':
            self.opened(self.shown())
        else:
            self.refusal = answer
            self.fault(answer, None)

    def hear(self, line, answer):
        job = (line[0].split('_')[0], line[-1])
        if self.refusal:
            same(answer, self.refusal)
        elif line[0] in ENDINGS and not self.begun.get(job):
            same(answer, 'false')
        else:
            super().hear(line, answer)
        if line[0] in BEGINNINGS:
            self.begun[job] = is_begun(answer)

    def end(self, how, answer):
        """Takes what the end of a life was answered."""
        if self.refusal:
            same(answer, self.refusal)
        elif how == 'drop' or self.is_poisoned:
            same(answer, 'open')
        else:
            self.closed({'closed': 'ok', 'open': 'error 1 Io(Other)'}.get(answer, answer))


class Lives(Play):
    """A database that takes a script by lives."""

    def __init__(self, into):
        self.into, self.history, self.made = into, LivingHistory(), 0
        self.numbers, self.snapshots, self.tickets = [], [], {}

    def calls(self, lines):
        """Asks for the calls of a life."""
        self.numbers = []
        for line in lines:
            self.ask(line)

    def live(self, lines, end):
        """Asks for a life and its end. In each life numbers begin anew."""
        def begin(answer):
            self.tickets.clear()
            self.history.begin(answer)
        self.into.asked = 0
        self.into.say('life', begin)
        self.calls(lines)
        self.into.say(end, lambda answer: self.history.end(end.split()[1], answer))


def calls_of_life(lives):
    """The calls of the disk that the last of these lives makes, from 1 on: each with how it ends where that call fails, closed or let go,
    and with how many bytes of an append go out then. They are made as a list of calls on a disk that keeps a record."""
    into = Input()
    play = Lives(into)
    for at, lines in enumerate([[]] + lives):
        for line in ['new'] * (at == 0) + ['record'] * (at == len(lives)) + ['open']:
            into.say(line)
        play.calls(lines)
        for line in [['close', 'lose 0'], ['drop']][at == 0] if at < len(lives) else ['moments', 'close', 'moments', 'stop']:
            into.say(line)
    told = answers(into.lines)
    before_closing, count = number(told[-4]) // 2, number(told[-2]) // 2
    told = asked(into.lines, ['%s 1 %d' % (word, 2 * call) for call in range(1, count + 1) for word in ('ways', 'names_at')])
    for call, ways, names in zip(range(1, count + 1), told[::2], told[1::2]):
        # Behind an append each length of its bytes but the whole is another way to crash.
        sent = number(ways) - number(names) + 1 if number(ways) > number(names) else 0
        yield call, 'close' if call > before_closing else 'drop', sorted({0, sent // 2, sent})


def read_by(commands, made):
    """What the lines that read everything are answered behind these commands."""
    homes, given = fold(commands), sum(command[0] == 'keyspace' for command in commands)
    names = sorted(name.encode().hex() for name, _ in homes.values())
    scans = [pairs_text(homes[id][1]) if id in homes else 'error 9 KeyspaceDeleted' if id <= given else 'error 19 UnknownKeyspace'
             for id in range(1, made + 1)]
    return ['count %d' % len(commands), ' '.join(['names'] + names)] + scans


def behind(end, reads):
    """The lines behind a life that ends so: two lives that read everything. One is before them where a call of its opening is to fail."""
    failing = ['life', 'end drop 1'] if len(end.split()) > 3 else []
    return [end] + failing + ['life'] + reads + ['end drop 0', 'life'] + reads + ['end drop stay', 'live']


def judge(lines, told, first, play):
    """Judges the answers to lives whose first lines are answered so."""
    history, at = play.history, len(first)
    if lines[at + 1] == 'end drop 1':
        # Its opening may make fewer calls.
        first = first + (['ok', 'open'] if told[at] == 'ok' else ['error 1 Io(Other)'] * 2)
        at += 2
    count = number(told[at + 1]) if told[at + 1].startswith('count ') else -1
    if not history.safe <= count <= len(history.commands):
        raise Wrong('%d of %d commands, %d of them safe' % (count, len(history.commands), history.safe))
    reads = read_by(history.commands[:count], play.made)
    due = first + ['ok'] + reads + ['open', 'ok'] + reads + ['open', 'ok']
    for line, answer, wanted in zip(lines, told, due):
        if answer != wanted:
            raise Wrong('at `%s`: %s, not %s' % (line, answer, wanted))


def failing_life(lives, fault, ends):
    """A call of the disk fails in the last of these lives, which ends in each of these ways."""
    into = Input()
    play = Lives(into)
    before = ['end drop stay'] + ['end close 0'] * (len(lives) - 1)
    before[-1] += ' %d %d' % fault
    into.expect('life', 'ok')
    into.expect(before[0], 'open')
    for lines, end in zip(lives, before[1:] + ends[:1]):
        play.live(lines, end)
    reads = ['count visible', 'names'] + ['scan %d' % id for id in range(1, play.made + 1)]
    inputs = [into.lines[:-1] + behind(end, reads) for end in ends]
    told = answers([line for lines in inputs for line in lines])
    first = told[:len(into.lines)]
    into.check(first)
    if (play.history.at_fault is None) != (fault[0] == 0):
        raise Wrong('call %d is told to fail; %s' % (fault[0], into.shortened(len(first))))
    for lines in inputs:
        try:
            judge(lines, told[:len(lines)], first, play)
        except Wrong as wrong:
            raise Wrong('%s\n  input: %s' % (wrong, '; '.join(lines))) from None
        del told[:len(lines)]
    return len(ends)


def failing_lives(name, count, call, how, parts, step):
    """The same of so many lives of a script, for each of these numbers of bytes that go out. Behind it the power stays on, so that what is
    read is safe because it was read, or each file keeps so many of its unsynced bytes: for each call other numbers, one in so many. And
    then a call of the next opening may fail."""
    keeps = ['stay', *sorted({0, *range(call % step, LONGEST, step), END})]
    keeps += ['%s %d %d' % (keep, 1 + call % 30, call % 50) for keep in ('stay', 0, call % 100)]
    ends = ['end %s %s' % (how, keep) for keep in keeps]
    return sum(failing_life(lives_in(name)[:count], (call, part), ends) for part in parts)


def parts_of_lives(name, step):
    """The parts of the sweep over a script: each call of each of its lives."""
    lives = lives_in(name)
    for count in range(1, len(lives) + 1):
        for call, how, parts in [(0, 'drop', [0]), *calls_of_life(lives[:count])]:
            yield failing_lives, name, count, call, how, parts, step
