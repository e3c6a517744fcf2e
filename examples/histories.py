"""Reads machine texts and history texts for the tools of this folder, and says which change sent which message.

A text is taken to be one that the program accepts or writes: it is read for its meaning, and not looked through for
faults. `examples/explain` does that, by asking the program.
"""
from dataclasses import dataclass


class NotAHistory(Exception):
    """The text is not what it was taken for; the argument says at which line."""


@dataclass(frozen=True)
class Machine:
    """What a machine text says, without the instructions of its guests."""
    nodes: int
    words: int
    pages: int
    policy: str
    distances: dict
    entries: list  # (space, virtual page, page), numbered from 0
    spaces: list  # the space in which each guest starts

    def distance(self, start, goal):
        if start == goal:
            return 0
        return self.distances.get((start, goal), 1)

    def page_of(self, entry):
        return self.entries[entry][2]

    def nearest(self, node, copies):
        """The module, among those of the copies, that is nearest to a node."""
        return min(copies, key=lambda module: (self.distance(node, module), module))


@dataclass(frozen=True)
class Directory:
    """Where a page has its copies: for each module the number of the frame."""
    state: str
    frozen: bool
    copies: dict

    def name(self):
        return self.state + ('*' if self.frozen else '')


EMPTY = Directory('empty', False, {})


@dataclass(frozen=True)
class Access:
    place: int
    actor: int
    kind: str
    space: int
    address: int
    page: int
    word: int
    old: int
    new: int
    version: int
    module: int
    frame: int
    grant: int

    def is_local(self):
        return self.module == self.actor


@dataclass(frozen=True)
class Change:
    place: int
    actor: int
    page: int
    seq: int
    time: int
    cause: str
    action: str
    removed: str
    before: Directory
    after: Directory
    granted: str

    def entry(self):
        """The entry whose translation was granted, if any."""
        return None if self.granted == 'none' else int(self.granted.split('.')[0])

    def freezes(self):
        return self.after.frozen and not self.before.frozen

    def copied_from(self, machine):
        """The module that a new copy was made from, if one was made."""
        if self.action not in ('replicate', 'migrate'):
            return None
        return machine.nearest(self.actor, self.before.copies)


@dataclass(frozen=True)
class Applied:
    place: int
    actor: int
    entry: int
    message: str
    how: str


@dataclass(frozen=True)
class Switch:
    place: int
    actor: int
    space: int


@dataclass(frozen=True)
class History:
    machine: Machine
    items: list
    ends: list  # (how a processor ended, after how many turns)


def rows_of(text):
    """The lines that have words, as (number of the line, words)."""
    for number, line in enumerate(text.split('\n'), 1):
        words = line.split('#', 1)[0].split()
        if words:
            yield number, words


def machine_of(rows):
    """The machine of these rows."""
    single, distances, entries, spaces = {}, {}, [], []
    for _, words in rows:
        if words[0] == 'distance':
            distances[int(words[1]), int(words[2])] = int(words[3])
        elif words[0] == 'map':
            entries.append(tuple(int(word) for word in words[1:4]))
        elif words[0] == 'guest':
            spaces.append(int(words[1]))
        else:
            single.setdefault(words[0], words[1:])
    return Machine(int(single['nodes'][0]), int(single['words'][0]), int(single['pages'][0]),
                   ' '.join(single['policy']), distances, entries, spaces)


def directory_of(word):
    head, _, tail = word.partition(':')
    pairs = (copy.split('.') for copy in tail.split(',') if copy)
    return Directory(head.rstrip('*'), head.endswith('*'), {int(module): int(frame) for module, frame in pairs})


def item_of(place, words):
    kind, fields = words[0], words[1:]
    if kind == 'access':
        return Access(place, int(fields[0]), fields[1], *(int(field) for field in fields[2:12]))
    if kind == 'change':
        numbers = (int(field) for field in fields[:4])
        return Change(place, *numbers, *fields[4:7], directory_of(fields[7]), directory_of(fields[8]), fields[9])
    if kind == 'applied':
        return Applied(place, int(fields[0]), int(fields[1]), fields[2], fields[3])
    if kind == 'switch':
        return Switch(place, int(fields[0]), int(fields[1]))
    raise ValueError(kind)


def is_history(text):
    """Does the text begin as a history, and not as a machine text?"""
    return next(rows_of(text), (0, ['']))[1][0] == 'history'


def history_of(text):
    """The history of a history text."""
    rows = list(rows_of(text))
    at = 0
    try:
        if rows[0][1] != ['history', '1']:
            raise ValueError('history')
        while rows[at][1] != ['end']:
            at += 1
        machine = machine_of(rows[1:at])
        at += 1
        count = int(rows[at][1][1])
        items = []
        for place in range(count):
            at += 1
            items.append(item_of(place, rows[at][1]))
        at += 2
        ends = []
        while rows[at][1] != ['end']:
            if rows[at][1][0] == 'processor':
                ends.append((rows[at][1][2], int(rows[at][1][3])))
            at += 1
    except (ValueError, IndexError, KeyError, TypeError) as fault:
        line = rows[at][0] if at < len(rows) else text.count('\n') + 1
        raise NotAHistory(f'line {line}: this is no history text that the program writes') from fault
    return History(machine, items, ends)


REMOVES = {'invalidate': 'all', 'restrict': 'writes'}


def senders_of(history):
    """For the place of each applied message, the change that sent it.

    It is the first change of the page, behind the one that granted the translation, with which another actor took away
    what the message takes. Where it stands does not tell it: a message by interrupt is applied before its change, one by
    activation behind it, and in a history that was merged from the journals of threads it may be the other way round.
    """
    grants, senders, changes = {}, {}, {}
    for item in history.items:
        if isinstance(item, Change):
            changes.setdefault(item.page, []).append(item)
    for item in history.items:
        if isinstance(item, Change) and item.entry() is not None:
            grants[item.actor, item.entry()] = item.seq
        elif isinstance(item, Applied):
            granted = grants.get((item.actor, item.entry), -1)
            sender = next((change for change in changes.get(history.machine.page_of(item.entry), [])
                           if change.actor != item.actor and change.seq > granted
                           and change.removed == REMOVES[item.message]), None)
            if sender is not None:
                senders[item.place] = sender
    return senders
