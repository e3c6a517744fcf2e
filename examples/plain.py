"""Compiles the plain program of the folder `cpp`, and draws machine texts on which it is compared with the built one."""
import os
import subprocess

HERE = os.path.dirname(os.path.abspath(__file__))


def compiled(room):
    """The path of the plain program, compiled into the room by $CXX or `c++`; None where there is no such compiler."""
    goal = os.path.join(room, 'plain')
    source = os.path.join(HERE, 'cpp', 'plain.cpp')
    try:
        subprocess.run([os.environ.get('CXX', 'c++'), '-O2', '-std=c++17', '-o', goal, source], check=True)
    except FileNotFoundError:
        return None
    return goal


def drawn_policy(draw):
    return draw.choice(['place', 'replicate', f'platinum {draw.choice([0, 10, 60, 300])} {draw.choice([64, 100, 200])}'])


def drawn_schedule(draw, nodes):
    actors = ' '.join(str(draw.randint(0, nodes)) for _ in range(draw.randint(1, 200)))
    return draw.choice(['robin', f'random {draw.randint(0, 999)} {draw.randint(0, 9)}', f'list {actors}'])


def drawn_instruction(draw, addresses):
    """One line of a guest; few of the addresses have no entry, so most guests do not trap."""
    register, other = draw.randint(0, 3), draw.randint(0, 3)
    address = draw.randrange(addresses + (draw.random() < 0.02))
    return draw.choice([f'load r{register} {address}', f'load r{register} {address}', f'store r{register} {address}',
                        f'store r{register} {address}', f'fadd r{register} r{other} {address}', f'add r{register} r{other} r1',
                        f'set r{register} {draw.randint(0, 9)}', f'switch {draw.randint(0, 2)}', f'print r{register}'])


def drawn_guest(draw, addresses):
    """A guest with one loop, which it leaves only where a register stays 0: the budget ends most of them."""
    body = [drawn_instruction(draw, addresses) for _ in range(draw.randint(3, 14))]
    at = draw.randrange(len(body))
    return [f'guest {draw.randint(0, 2)}', *body[:at], 'label again', *body[at:], 'less r2 r3 again', 'zero r0 again', 'halt']


def drawn_text(draw):
    """A small machine text: up to eight nodes, few pages with aliases in three spaces, and sometimes too few frames."""
    nodes, words, pages, places = draw.choice([1, 2, 2, 3, 3, 4, 8]), draw.choice([4, 8]), draw.randint(1, 3), 4
    lines = ['platinum 1', f'nodes {nodes}', f'frames {draw.randint(1, 4)}', f'words {words}', f'pages {pages}',
             f'policy {drawn_policy(draw)}', f'budget {draw.randint(10, 150)}', f'schedule {drawn_schedule(draw, nodes)}']
    lines += [f'distance {a} {b} {draw.randint(1, 4)}' for a in range(nodes) for b in range(nodes) if a != b and draw.random() < 0.5]
    entries = [(space, place) for space in range(3) for place in range(places)]
    draw.shuffle(entries)
    lines += [f'map {space} {place} {draw.randrange(pages)}' for space, place in entries]
    lines += [f'init {page} {word} {draw.randint(0, 99)}' for page in range(pages) for word in range(words) if draw.random() < 0.3]
    for _ in range(nodes):
        lines += drawn_guest(draw, places * words)
    return '\n'.join([*lines, 'end', ''])
