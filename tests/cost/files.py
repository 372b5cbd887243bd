#!/usr/bin/env python3
"""Writes the files on which docs/ARCHITECTURE.md counts instructions into the current folder; the same ones at every run."""
import random


def stock(name, cameras, fits, lit, end='\n'):
    with open(name, 'w', newline=end) as f:
        f.write('11%02X\n' % cameras)
        for u, v in sorted(fits):
            f.write('12%02X%02X\n' % (u, v))
        for u, v in lit:
            f.write('13%02X%02X\n' % (u, v))
        f.write('1F%04X\n' % (len(fits) + len(lit)))


def graph(name, arcs, end='\n'):
    with open(name, 'w', newline=end) as f:
        f.write('018000\n')
        for tail, head in arcs:
            f.write('02%02X%02X\n' % (tail, head))
            f.write('02%02X%02X\n' % (head ^ 1, tail ^ 1))
        f.write('0F%04X\n' % (2 * len(arcs)))


random.seed(1)
every = [(u, v) for u in range(127) for v in range(u + 1, 127)]
fits = random.sample(every, 3900)
stock('random.stock', 127, fits, [])
stock('random_crlf.stock', 127, fits, [], '\r\n')
triangles = [(3 * i + a, 3 * i + b) for i in range(42) for a, b in ((0, 1), (0, 2), (1, 2))]
stock('triangles.stock', 126, triangles + [(3 * i + 2, 3 * i + 3) for i in range(41)], [])
stock('chain.stock', 126, [(i, i + 1) for i in range(125)], [(i, i + 1) for i in range(1, 124, 2)])
even = [random.sample(range(0, 256, 2), 2) for _ in range(4096)]
graph('even.graph', even)
graph('even_crlf.graph', even[:3749], '\r\n')  # the largest that 60,000 bytes hold with these line ends
graph('buds.graph', [(0, 2)] + [random.sample(range(2, 256), 2) for _ in range(4095)])
# Each of the first 38 cameras has a single fit, which is lit, so that few fits stand before most lit pairs; the others fit nearly all
# later ones.
first = [(u, u + 89) for u in range(38)]
lit = first + [(u, u + 22) for u in range(38, 60)]
later = [(u, v) for u in range(38, 127) for v in range(u + 1, 127) if (u, v) not in lit]
stock('lit.stock', 127, lit + later[-3840:], lit)
stock('unfit.stock', 127, lit[:-1] + later[-3841:], lit)  # the last lit pair is no fit, one more fit stands in its place: question 13
