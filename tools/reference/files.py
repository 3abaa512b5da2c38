#!/usr/bin/env python3
"""files.py FOLDER: the files of release_trial, releases and what is none, by name."""
import os
import random
import sys

from reference import Graph, numbers, release_of


def graph(n, edges, hidden=(), classes=None):
    found = Graph(n)
    found.edges = {(min(p, q), max(p, q)) for p, q in edges}
    found.hidden = set(hidden)
    found.classes = classes or found.classes
    return found


def drawn(seed, n, chance):
    """Edges of n nodes, each pair with that chance."""
    draw = random.Random(seed)
    return [(p, q) for q in range(n) for p in range(q) if draw.random() < chance]


def twins(seed, n, kinds, chance):
    """Node p is a twin of p mod kinds; the kinds that are even are cliques."""
    draw = random.Random(seed)
    tied = {(i, j): draw.random() < chance for i in range(kinds) for j in range(i)}
    tied.update({(i, i): i % 2 == 0 for i in range(kinds)})
    return [(p, q) for q in range(n) for p in range(q) if tied[max(p % kinds, q % kinds), min(p % kinds, q % kinds)]]


BIPARTITE = [(p, q) for p in (0, 1, 2) for q in (3, 4, 5)]

GRAPHS = {
    'none': graph(0, []),
    'one': graph(1, []),
    'pair': graph(2, []),
    'pair-tied': graph(2, [(0, 1)]),
    'path3': graph(3, [(0, 1), (1, 2)]),
    'triangle': graph(3, [(0, 1), (1, 2), (0, 2)]),
    'path4': graph(4, [(0, 1), (1, 2), (2, 3)]),
    'bipartite': graph(6, BIPARTITE),
    'bipartite-cut': graph(6, [pair for pair in BIPARTITE if pair != (0, 3)]),
    'bipartite-hidden': graph(6, BIPARTITE, [3]),
    'same-keys': graph(22, [(20, 0), (20, 11), (21, 8), (21, 9)]),
    'all-hidden': graph(3, [(0, 1)], [0, 1, 2]),
    'first-hidden': graph(6, [(0, 1), (1, 2), (3, 4)], [0]),
    'clique-and-lone': graph(6, [(1, 3), (1, 4), (3, 4), (2, 5)]),
    'edgeless512': graph(512, []),
    'path512': graph(512, [(p, p + 1) for p in range(511)]),
    'star512': graph(512, [(p, 511) for p in range(511)]),
    'sparse512': graph(512, drawn(1, 512, 0.002), range(0, 512, 9)),
    'clique511': graph(512, [(p, q) for q in range(512) for p in range(q)], [17]),
    'twins300': graph(300, twins(2, 300, 7, 0.5)),
    'dense40': graph(40, drawn(3, 40, 0.5)),
    'dense64-hidden': graph(64, drawn(4, 64, 0.8), range(3, 64, 5)),
    'pair-classes': graph(2, [], (), [0, 1]),
    'pair-tied-classes': graph(2, [(0, 1)], (), [255, 0]),
    'bipartite-classes': graph(6, BIPARTITE, [3], [2, 0, 2, 7, 1, 1]),
    'clique6-classes': graph(6, [(p, q) for q in range(6) for p in range(q)], (), [1, 2, 1, 0, 2, 255]),
    'edgeless512-classes': graph(512, [], (), [p % 256 for p in range(512)]),
    'twins300-classes': graph(300, twins(2, 300, 7, 0.5), range(0, 300, 13), [p % 3 for p in range(300)]),
    'sparse64-classes': graph(64, drawn(5, 64, 0.02), range(0, 64, 9), [p * p % 5 for p in range(64)]),
}


def file(n, m, g, groups, superedges):
    """Records as told, right or not: groups are a letter, after it a class that is not 0, and members."""
    found = b'HD' + numbers(n, m, g)
    for (letter, *c), *members in groups:
        found += b'G' + letter.encode() + numbers(len(members), int(''.join(c) or 0), *members)
    for pair in superedges:
        found += b'SE' + numbers(*pair)
    return found + b'EN'


LEFT, RIGHT = ('I', 0, 1, 2), ('I', 3, 4, 5)
CUT = [('I', 0), ('I', 1, 2), ('I', 3), ('I', 4, 5)]
GOOD = file(6, 6, 2, [LEFT, RIGHT], [(0, 1)])

DAMAGED = {
    'no-bytes': b'',
    'head-mark': b'DH' + GOOD[2:],
    'group-mark': GOOD.replace(b'GI', b'IG', 1),
    'group-unknown': GOOD.replace(b'GI', b'GX', 1),
    'superedge-mark': GOOD.replace(b'SE', b'ES'),
    'end-mark': GOOD[:-2] + b'NE',
    'end-missing': GOOD[:-2],
    'end-twice': GOOD + b'EN',
    'byte-after': GOOD + b'\0',
    'head-twice': GOOD[:8] + GOOD,
    'n-less': file(5, 6, 2, [LEFT, RIGHT], [(0, 1)]),
    'n-513': file(513, 6, 2, [LEFT, RIGHT], [(0, 1)]),
    'n-65535': file(65535, 6, 2, [LEFT, RIGHT], [(0, 1)]),
    'm-more': file(6, 7, 2, [LEFT, RIGHT], [(0, 1)]),
    'm-less': file(6, 5, 2, [LEFT, RIGHT], [(0, 1)]),
    'm-most': file(6, 65535, 2, [LEFT, RIGHT], [(0, 1)]),
    'g-more': file(6, 6, 3, [LEFT, RIGHT], [(0, 1)]),
    'g-less': file(6, 6, 1, [LEFT, RIGHT], [(0, 1)]),
    'g-most': file(6, 6, 65535, [LEFT, RIGHT], [(0, 1)]),
    'group-missing': file(6, 6, 2, [('I', 0, 1, 2, 3, 4, 5)], []),
    'count-most': GOOD[:10] + numbers(65535) + GOOD[12:],
    'count-nought': file(6, 6, 3, [LEFT, RIGHT, ('I',)], [(0, 1)]),
    'member-6': file(6, 6, 2, [LEFT, ('I', 3, 4, 6)], [(0, 1)]),
    'member-65535': file(6, 6, 2, [LEFT, ('I', 3, 4, 65535)], [(0, 1)]),
    'members-unsorted': file(6, 6, 2, [LEFT, ('I', 3, 5, 4)], [(0, 1)]),
    'member-twice': file(6, 6, 2, [LEFT, ('I', 3, 4, 4)], [(0, 1)]),
    'member-shared': file(6, 6, 2, [LEFT, ('I', 2, 4, 5)], [(0, 1)]),
    'clique-of-one': file(3, 3, 2, [('I', 0, 2), ('C', 1)], [(0, 1)]),
    'kind-wrong': file(3, 3, 2, [('C', 0, 2), ('I', 1)], [(0, 1)]),
    'groups-unsorted': file(6, 6, 2, [RIGHT, LEFT], [(0, 1)]),
    'fewer-lone': file(2, 2, 2, [('I', 0), ('I', 1)], []),
    'fewer-clique': file(2, 2, 2, [('I', 0), ('I', 1)], [(0, 1)]),
    'fewer-independent': file(6, 6, 3, [LEFT, ('I', 3, 4), ('I', 5)], [(0, 1), (0, 2)]),
    'fewer-cliques': file(5, 5, 2, [('C', 0, 3), ('C', 1, 2, 4)], [(0, 1)]),
    'superedges-missing': file(6, 6, 4, CUT, [(0, 3)]),
    'superedges-unsorted': file(6, 6, 4, CUT, [(0, 3), (1, 3), (1, 2)]),
    'superedge-twice': file(6, 6, 4, CUT, [(0, 3), (1, 2), (1, 2), (1, 3)]),
    'superedge-greater-first': file(6, 6, 4, CUT, [(0, 3), (2, 1), (1, 3)]),
    'superedge-own': file(6, 6, 4, CUT, [(0, 0), (0, 3), (1, 2), (1, 3)]),
    'superedge-4': file(6, 6, 4, CUT, [(0, 3), (1, 2), (1, 4)]),
    'superedge-before-group': GOOD[:20] + b'SE' + numbers(0, 1) + GOOD[20:32] + b'EN',
    'class-256': file(6, 6, 2, [('I256', 0, 1, 2), RIGHT], [(0, 1)]),
    'class-65535': file(6, 6, 2, [LEFT, ('I65535', 3, 4, 5)], [(0, 1)]),
    'class-256-lone': file(1, 1, 1, [('I256', 0)], []),
    'class-256-clique': file(2, 2, 1, [('C256', 0, 1)], []),
    'classes-missing': GOOD[:12] + GOOD[14:24] + GOOD[26:],
    'fewer-in-class': file(2, 2, 2, [('I7', 0), ('I7', 1)], []),
    'fewer-tied-in-class': file(2, 2, 2, [('I255', 0), ('I255', 1)], [(0, 1)]),
    'fewer-past-class': file(3, 3, 3, [('I1', 0), ('I2', 1), ('I1', 2)], []),
    'fewer-past-clique': file(4, 4, 3, [('C1', 0, 3), ('I', 1), ('I1', 2)], [(0, 1), (0, 2), (1, 2)]),
}


def main(folder):
    os.makedirs(folder, exist_ok=True)
    found = {name: release_of(g)[0] for name, g in GRAPHS.items()}
    found.update(DAMAGED)
    for name, content in found.items():
        with open(os.path.join(folder, name), 'wb') as f:
            f.write(content)


if __name__ == '__main__':
    main(sys.argv[1])
