#!/usr/bin/env python3
"""Writes the machine texts that `benchmark` and `limits` run, and the longest history text.

usage: examples/texts.py shared POLICY ROUNDS | straight | waiting | rivals | pages ROUNDS | page ROUNDS | local ROUNDS
       examples/texts.py largest | roomy
       examples/texts.py longest HISTORY

A text goes to standard output; `longest` makes the history text in a file as long as may be.
"""
import sys

MOST_TEXT_BYTES, MOST_ITEMS, MOST_HISTORY_BYTES = 1048576, 2621440, 268435456


def text_of(header, maps, guests):
    """The text of a machine: its header, its entries as (space, virtual page, page), and the lines of its guests."""
    lines = ['platinum 1', *header, *(f'map {space} {place} {page}' for space, place, page in maps)]
    for space, instructions in guests:
        lines += [f'guest {space}', *instructions]
    return '\n'.join([*lines, 'end', ''])


def header_of(nodes, frames, words, pages, policy, budget):
    return [f'nodes {nodes}', f'frames {frames}', f'words {words}', f'pages {pages}', f'policy {policy}', f'budget {budget}',
            'schedule robin']


def shared(policy, rounds):
    """Eight processors add to words of 32 pages that they draw from a generator, and count in a word of one page more."""
    def guest(node):
        return 0, [f'set r0 {1 + 7919 * node}', 'set r1 1', f'set r2 {rounds}', 'set r3 1664525', 'set r4 1013904223',
                   'set r5 511', 'set r6 16', 'label loop', 'mul r0 r0 r3', 'add r0 r0 r4', 'shr r7 r0 r6', 'and r7 r7 r5',
                   'load r8 0 r7', 'add r8 r8 r1', 'store r8 0 r7', 'fadd r9 r1 512', 'add r10 r10 r1', 'less r10 r2 loop',
                   'halt']
    return text_of(header_of(8, 40, 16, 33, policy, 41000), [(0, page, page) for page in range(33)],
                   [guest(node) for node in range(8)])


def straight():
    """One page, whose guests load and store it in turn without a loop."""
    def guest(node):
        return 0, [f'set r1 {node}', *(line for word in range(2047)
                                       for line in (f'load r2 {word % 64}', f'store r1 {word % 64}')), 'halt']
    return text_of(header_of(8, 1, 64, 1, 'place', 65536), [(0, 0, 0)], [guest(node) for node in range(8)])


def mapped(policy, maps):
    """Eight processors that load the words of one page and store one of them in turn, among so many entries of which theirs is
    the last; the others lead to pages that nobody uses. Each makes 38,003 turns."""
    def guest(node):
        return 7, ['set r1 1', 'set r2 2000', 'label again', *(f'load r4 {1008 + word}' for word in range(16)),
                   f'store r4 {1008 + node}', 'add r3 r3 r1', 'less r3 r2 again', 'halt']
    others = [(place // 64, place % 64, 1 + place % 63) for place in range(maps - 1)]
    return text_of(header_of(8, 40, 16, 64, policy, 41000), [*others, (7, 63, 0)], [guest(node) for node in range(8)])


def waiting():
    """Guests that switch to a space of 64 entries for ever, so that nearly every event is a look at a mask."""
    return text_of(header_of(2, 4, 4, 1, 'place', 65536), [(0, place, 0) for place in range(64)],
                   [(0, ['label a', 'switch 0', 'jump a'])] * 2)


def rivals():
    """Eight processors that come to one page in turn, one to write and the next to read, under the largest budget: a read
    restricts the writer before it, and a write invalidates both translations, so there are seven items for two turns."""
    def guest(node):
        return 0, ['label again', *(['store r0 0' if node % 2 == 0 else 'load r1 0'] * 4000), 'jump again']
    return text_of(header_of(8, 1, 4, 1, 'replicate', 65536), [(0, 0, 0)], [guest(node) for node in range(8)])


def own_or_common(pages, rounds):
    """Four processors that load and store words, each of a page of its own where there are four, or all of one page."""
    def guest(node):
        first = 64 * (node if pages == 4 else 0) + 16 * node
        body = [line for word in range(16) for line in (f'load r3 {first + word}', f'store r3 {first + word}')]
        return 0, ['set r1 1', f'set r2 {rounds}', 'label again', *body, 'add r4 r4 r1', 'less r4 r2 again', 'halt']
    return text_of(header_of(4, 4, 64, pages, 'place', 65536), [(0, page, page) for page in range(pages)],
                   [guest(node) for node in range(4)])


def local(rounds):
    """Four processors that count, and use no page."""
    guest = (0, ['set r1 1', f'set r2 {rounds}', 'label again', *['add r3 r3 r1'] * 32, 'add r4 r4 r1', 'less r4 r2 again',
                 'halt'])
    return text_of(header_of(4, 4, 64, 1, 'place', 65536), [(0, 0, 0)], [guest] * 4)


def largest():
    """The largest machine text: everything as large as it may be, and comments up to the most bytes.

    Each guest goes for ever through its 4,096 instructions, which switch through the eight spaces, and load, store and
    fetch-and-add in all pages; each page has an entry in each space."""
    header = [line for line in header_of(8, 64, 64, 64, 'platinum 1000000 64', 65536) if not line.startswith('schedule')]
    header += ['schedule list ' + ' '.join(str(at % 9) for at in range(4096))]
    header += [f'distance {a} {b} {1 + (37 * a + 11 * b) % 1000}' for a in range(8) for b in range(8) if a != b]
    maps = [(space, place, (place + 8 * space) % 64) for space in range(8) for place in range(64)]
    inits = [f'init {page} {word} {4294967295 - 64 * page - word}' for page in range(64) for word in range(64)]

    def guest(node):
        lines = ['set r1 1']
        for at in range(1, 4095):
            if at % 16 == 0:
                lines.append(f'label l{at // 16}')
            address = (64 * (at // 3 + 8 * node) + at) % 4096
            lines.append(f'switch {at // 512}' if at % 512 == 0 else
                         (f'load r2 {address}', f'store r2 {address}', f'fadd r3 r1 {address}')[at % 3])
        return node, [*lines, 'jump l1', 'label last']
    text = text_of(header, maps, [guest(node) for node in range(8)])
    at = text.index('guest 0\n')
    text = text[:at] + '\n'.join(inits) + '\n' + text[at:]
    return text + '#' * (MOST_TEXT_BYTES - len(text) - 1) + '\n'


def roomy():
    """The machine for whose history the most room is asked, and whose guests halt at once."""
    return text_of(header_of(8, 64, 64, 64, 'platinum 0 64', 65536), [], [(0, ['halt'])] * 8)


def make_longest(file):
    """Makes a history text as long as may be: its last item is written again and again, and comments fill the lines."""
    with open(file, 'rb') as text:
        lines = text.read().split(b'\n')
    at = next(number for number, line in enumerate(lines) if line.startswith(b'items '))
    count = int(lines[at].split()[1])
    lines[at] = b'items %d' % MOST_ITEMS
    items = lines[at + 1:at + 1 + count] + [lines[at + count]] * (MOST_ITEMS - count)
    rest = lines[at + 1 + count:]
    missing = MOST_HISTORY_BYTES - sum(len(line) + 1 for line in lines[:at + 1] + items + rest) + 1
    each, more = divmod(missing, MOST_ITEMS)
    with open(file, 'wb') as text:
        text.write(b'\n'.join(lines[:at + 1]) + b'\n')
        text.writelines(line + b'#' * (each + (number < more)) + b'\n' for number, line in enumerate(items))
        text.write(b'\n'.join(rest))


def main():
    name, *given = sys.argv[1:] or ['']
    if name == 'longest':
        make_longest(given[0])
        return
    makers = {'shared': lambda: shared(given[0], int(given[1])), 'straight': straight, 'waiting': waiting, 'rivals': rivals,
              'pages': lambda: own_or_common(4, int(given[0])), 'page': lambda: own_or_common(1, int(given[0])),
              'local': lambda: local(int(given[0])), 'largest': largest, 'roomy': roomy}
    if name not in makers:
        sys.exit(__doc__.split('\n\n')[1])
    sys.stdout.write(makers[name]())


if __name__ == '__main__':
    main()
