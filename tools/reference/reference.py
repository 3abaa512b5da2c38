#!/usr/bin/env python3
"""What documents 01 and 02 want of the calls of a script, worked out from sets. README.md has the scripts' languages.

    reference.py index < SCRIPT             what index_trial prints
    reference.py release FOLDER < SCRIPT    what release_trial prints, run in the folder

An implementation apart from the library: a graph is a set of pairs, a set of hidden nodes and a class for each node, and after each
update the groups are found anew by Algorithm 1."""
import functools
import os
import sys

MOST_NODES, MOST_UPDATES, ROW_WORDS, NODE_NUMBERS, UPDATE_NUMBERS = 512, 4096, 8, 5, 4
MOST_STATES, NAME_BYTES, MOST_CLASS = 8, 16, 255
NO_CHAIN = 65535


class Graph:
    """n nodes, edges as pairs (lesser, greater), hidden nodes, the class of each node."""

    def __init__(self, n):
        self.n = n
        self.edges = set()
        self.hidden = set()
        self.classes = [0] * n

    def tied(self, p, q):
        return (min(p, q), max(p, q)) in self.edges

    def neighbourhoods(self):
        found = [set() for _ in range(self.n)]
        for p, q in self.edges:
            found[p].add(q)
            found[q].add(p)
        return [frozenset(s) for s in found]


def algorithm1(nodes, neighbourhood, classes):
    """Algorithm 1 of source document 002, lines 2 to 8, where nodes of one group have one class: the groups, by least member, members
    ascending."""
    closed = {u: neighbourhood[u] | {u} for u in nodes}
    done, groups = set(), []
    for u in nodes:
        if u in done:
            continue
        group = [u]
        done.add(u)
        for v in nodes:
            alike = neighbourhood[u] == neighbourhood[v] or closed[u] == closed[v]
            if v not in done and alike and classes[u] == classes[v]:
                group.append(v)
                done.add(v)
        groups.append(group)
    return groups


def groups_of(graph):
    return algorithm1(range(graph.n), graph.neighbourhoods(), graph.classes)


def edges_of(graph):
    """The edge table of a graph."""
    rows = [sum(1 << q for q in neighbours) for neighbours in graph.neighbourhoods()]
    return [row >> 64 * w & 2 ** 64 - 1 for row in rows for w in range(ROW_WORDS)]


def marks_of(graph):
    return [int(p in graph.hidden) for p in range(graph.n)]


def tables_of(graph):
    """The three tables of a graph: edges, nodes, keys."""
    n, neighbourhood, marks = graph.n, graph.neighbourhoods(), marks_of(graph)
    nodes, keys = [0] * (NODE_NUMBERS * n), []
    for p in range(n):
        cubes = sum((q + 1) ** 3 for q in neighbourhood[p])
        keys += [cubes % 2 ** 32, (cubes + (p + 1) ** 3) % 2 ** 32]
    for group in groups_of(graph):
        for i, p in enumerate(group):
            following, previous = group[(i + 1) % len(group)], group[i - 1]
            nodes[NODE_NUMBERS * p:NODE_NUMBERS * (p + 1)] = [group[0], following, previous, marks[p], graph.classes[p]]
    return [edges_of(graph), nodes, keys]


def simple_graph(n, edges, marks, classes):
    """The graph that an edge table, marks and classes tell, or None where the edges or the classes are none of a graph."""
    if any(c > MOST_CLASS for c in classes):
        return None
    rows = [sum(edges[8 * p + w] << 64 * w for w in range(ROW_WORDS)) for p in range(n)]
    graph = Graph(n)
    graph.classes = list(classes)
    for p in range(n):
        if rows[p] >> n or rows[p] >> p & 1:
            return None
        for q in range(n):
            if rows[p] >> q & 1:
                if not rows[q] >> p & 1:
                    return None
                graph.edges.add((min(p, q), max(p, q)))
        if marks[p] == 1:
            graph.hidden.add(p)
    return graph


def graph_of(n, tables):
    """The graph that tables of the right lengths hold, or None."""
    edges, nodes, keys = tables
    graph = simple_graph(n, edges, nodes[3::NODE_NUMBERS], nodes[4::NODE_NUMBERS])
    return graph if graph and tables_of(graph) == tables else None


def place_words(n):
    return 3 + (ROW_WORDS + 1) * n


def store_words(n):
    return 1 + MOST_STATES * place_words(n)


def place_of(n, place):
    """The words of a place of a store: None for a free one, or a name and the graph kept under it."""
    if place is None:
        return [0] * place_words(n)
    name, graph = place
    halves = [int.from_bytes(half, 'little') for half in (name[:8], name[8:])]
    return [1] + halves + edges_of(graph) + [mark + 2 * c for mark, c in zip(marks_of(graph), graph.classes)]


def store_of(n, places):
    """The words of a store with these places."""
    return [n + 1] + [word for place in places for word in place_of(n, place)]


def place_in(n, words):
    """The place that words tell; False where their edges or classes are none of a graph."""
    if words[0] == 0:
        return None
    name = b''.join(half.to_bytes(8, 'little') for half in words[1:3])
    last = words[3 + ROW_WORDS * n:]
    graph = simple_graph(n, words[3:3 + ROW_WORDS * n], [x % 2 for x in last], [x // 2 for x in last])
    return graph is not None and (name, graph)


def places_in(n, store):
    """The places of a store of the right length, or None where it is none: what its words tell must have them as its store."""
    starts = range(1, store_words(n), place_words(n))
    places = [place_in(n, store[i:i + place_words(n)]) for i in starts]
    if False in places or store_of(n, places) != store:
        return None
    names = [place[0] for place in places if place]
    return places if len(set(names)) == len(names) else None


def updates_of(batch):
    """The updates of a batch, the last one shorter where it is not in fours."""
    return [batch[i:i + UPDATE_NUMBERS] for i in range(0, len(batch), UPDATE_NUMBERS)]


def subject(graph, kind, u, v):
    """What an update of an edge or a mark is about: a set, and the one that is wanted in it or not."""
    return (graph.edges, (min(u, v), max(u, v))) if kind == 1 else (graph.hidden, u)


def update_refusal(graph, kind, u, v, wanted):
    if kind not in (1, 2, 3):
        return 13
    if u >= graph.n or kind == 1 and v >= graph.n:
        return 14
    if wanted > (0 if kind == 3 else 1) or (u == v, v != 0, v > MOST_CLASS)[kind - 1]:
        return 15
    if kind == 1 and graph.hidden & {u, v}:
        return 24
    if kind == 3:
        return 16 if graph.classes[u] == v else 0
    members, one = subject(graph, kind, u, v)
    return 16 if (one in members) == (wanted == 1) else 0


def update(graph, kind, u, v, wanted):
    """One update: its answer."""
    refused = update_refusal(graph, kind, u, v, wanted)
    if refused:
        return refused
    before = len(groups_of(graph))
    if kind == 3:
        graph.classes[u] = v
    else:
        members, one = subject(graph, kind, u, v)
        (members.add if wanted else members.remove)(one)
    return len(groups_of(graph)) - before


def numbers(*found):
    return b''.join(x.to_bytes(2, 'little') for x in found)


def visible_part(graph):
    """The visible nodes, and the graph of the edges between them, with their classes."""
    visible = Graph(graph.n)
    visible.classes = graph.classes
    visible.edges = {pair for pair in graph.edges if not graph.hidden & set(pair)}
    return [p for p in range(graph.n) if p not in graph.hidden], visible


def visible_groups(graph):
    nodes, visible = visible_part(graph)
    return algorithm1(nodes, visible.neighbourhoods(), visible.classes)


def release_of(graph):
    """The release file of a graph, and its m, g and s."""
    (nodes, visible), groups = visible_part(graph), visible_groups(graph)
    position = {p: i for i, group in enumerate(groups) for p in group}
    ends = [sorted((position[p], position[q])) for p, q in visible.edges]
    superedges = sorted({(i, j) for i, j in ends if i != j})
    file = b'HD' + numbers(graph.n, len(nodes), len(groups))
    for group in groups:
        clique = len(group) > 1 and visible.tied(group[0], group[1])
        file += (b'GC' if clique else b'GI') + numbers(len(group), visible.classes[group[0]], *group)
    for i, j in superedges:
        file += b'SE' + numbers(i, j)
    return file + b'EN', len(nodes), len(groups), len(superedges)


class Records:
    """A file taken two bytes at a time."""

    def __init__(self, file):
        self.pairs = [file[i:i + 2] for i in range(0, len(file), 2)]

    def mark(self):
        return self.pairs.pop(0) if self.pairs else b''

    def number(self):
        return int.from_bytes(self.mark(), 'little')

    def numbers(self, count):
        return [self.number() for _ in range(min(count, len(self.pairs)))]


def unfolded(n, groups, superedges):
    """The graph that groups (whether a clique, class, members) and superedges tell."""
    graph = Graph(n)
    graph.hidden = set(range(n)) - {p for _, _, members in groups for p in members}
    for _, c, members in groups:
        for p in members:
            graph.classes[p] = c
    pairs = [(p, q) for clique, _, members in groups if clique for p in members for q in members]
    for i, j in superedges:
        pairs += [(p, q) for p in groups[i][2] for q in groups[j][2]]
    graph.edges = {(min(p, q), max(p, q)) for p, q in pairs if p != q}
    return graph


@functools.lru_cache
def graph_of_file(file):
    """The graph whose release the bytes are, or None: what they tell must have them as its release."""
    records, groups, superedges = Records(file), [], []
    records.mark()
    n, _, _ = records.number(), records.number(), records.number()
    mark = records.mark()
    while mark in (b'GI', b'GC'):
        count, c = records.number(), records.number()
        groups.append((mark == b'GC', c, records.numbers(count)))
        mark = records.mark()
    while mark == b'SE':
        superedges.append((records.number(), records.number()))
        mark = records.mark()
    if mark != b'EN' or records.pairs:
        return None
    if n > MOST_NODES or any(c > MOST_CLASS or p >= n for _, c, members in groups for p in members):
        return None
    if any(max(pair) >= len(groups) for pair in superedges):
        return None
    graph = unfolded(n, groups, superedges)
    return graph if release_of(graph)[0] == file else None


@functools.lru_cache
def distances(file, p):
    """How many edges lead from p to each node of the graph of a file that any chain reaches: a search, node by node."""
    neighbourhood = graph_of_file(file).neighbourhoods()
    found, fresh = {p: 0}, [p]
    for u in fresh:
        for v in neighbourhood[u]:
            if v not in found:
                found[v] = found[u] + 1
                fresh.append(v)
    return found


class Calls:
    """The calls on lent tables, each a list that is changed in place. Numbers of a refused call are 0."""

    def wrong_size(self, n, tables):
        lengths = [len(t) for t in tables]
        return n > MOST_NODES or lengths != [ROW_WORDS * n, NODE_NUMBERS * n, 2 * n]

    def fill(self, tables, graph):
        for table, wanted in zip(tables, tables_of(graph)):
            table[:] = wanted

    def open(self, n, tables, store):
        if self.wrong_size(n, tables) or len(store) != store_words(n):
            return 11
        self.fill(tables, Graph(n))
        store[:] = store_of(n, [None] * MOST_STATES)
        return 0

    def kept(self, n, store, name):
        """The number that refuses a call for its store or its name's length, or 0, the places, and the one with the name."""
        if n > MOST_NODES or len(store) != store_words(n) or len(name) != NAME_BYTES:
            return 11, [], None
        places = places_in(n, store)
        if places is None:
            return 12, [], None
        return 0, places, next((i for i, place in enumerate(places) if place and place[0] == name), None)

    def keep(self, n, tables, store, name):
        if self.wrong_size(n, tables):
            return 11
        refused, places, at = self.kept(n, store, name)
        if refused:
            return refused
        graph = graph_of(n, tables)
        if graph is None:
            return 12
        if at is not None:
            return 22
        if None not in places:
            return 23
        places[places.index(None)] = name, graph
        store[:] = store_of(n, places)
        return 0

    def restore(self, n, tables, store, name):
        if self.wrong_size(n, tables):
            return 11
        refused, places, at = self.kept(n, store, name)
        if refused or at is None:
            return refused or 21
        self.fill(tables, places[at][1])
        return 0

    def drop(self, n, store, name):
        refused, places, at = self.kept(n, store, name)
        if refused or at is None:
            return refused or 21
        places[at] = None
        store[:] = store_of(n, places)
        return 0

    def apply(self, n, tables, batch, answers):
        updates = updates_of(batch)
        if self.wrong_size(n, tables) or len(batch) % UPDATE_NUMBERS or len(updates) > MOST_UPDATES:
            return 11
        graph = graph_of(n, tables)
        if graph is None:
            return 12
        if len(answers) < len(updates):
            return 18
        answers[:len(updates)] = [update(graph, *each) for each in updates]
        self.fill(tables, graph)
        return 0

    def asked(self, n, tables):
        """The number that refuses a query for its tables, or 0, and the graph."""
        if self.wrong_size(n, tables):
            return 11, None
        graph = graph_of(n, tables)
        return (12, None) if graph is None else (0, graph)

    def neighbours(self, n, tables, p, out):
        refused, graph = self.asked(n, tables)
        if refused:
            return refused, 0
        if p >= n:
            return 14, 0
        return self.listed(sorted(graph.neighbourhoods()[p]), groups_of(graph), out)

    def listed(self, found, groups, out):
        """The nodes found, each followed by the least of its group, and how many they are."""
        if len(out) < 2 * len(found):
            return 18, 0
        least = {p: min(group) for group in groups for p in group}
        out[:2 * len(found)] = [x for p in found for x in (p, least[p])]
        return 0, len(found)

    def tied(self, n, tables, p, q):
        refused, graph = self.asked(n, tables)
        if refused:
            return refused, False
        if p >= n or q >= n:
            return 14, False
        if p == q:
            return 15, False
        return 0, graph.tied(p, q)

    def group(self, n, tables, p):
        refused, graph = self.asked(n, tables)
        if refused:
            return refused, 0, 0, 0
        if p >= n:
            return 14, 0, 0, 0
        group = next(g for g in groups_of(graph) if p in g)
        kind = 0 if len(group) == 1 else 2 if graph.tied(group[0], group[1]) else 1
        return 0, group[0], kind, len(group)

    def release(self, n, tables, out):
        refused, graph = self.asked(n, tables)
        if refused:
            return refused, 0, 0, 0, 0
        file, m, g, s = release_of(graph)
        if len(out) < len(file):
            return 18, 0, 0, 0, 0
        out[:len(file)] = file
        return 0, m, g, s, len(file)

    def read(self, n, tables, file):
        if self.wrong_size(n, tables):
            return 11
        graph = graph_of_file(file)
        if graph is None:
            return 19
        if graph.n != n:
            return 20
        self.fill(tables, graph)
        return 0

    def file_neighbours(self, file, p, out):
        graph = graph_of_file(file)
        if graph is None:
            return 19, 0
        if p >= graph.n or p in graph.hidden:
            return 14, 0
        return self.listed(sorted(graph.neighbourhoods()[p]), visible_groups(graph), out)

    def file_distance(self, file, p, q):
        graph = graph_of_file(file)
        if graph is None:
            return 19, 0
        if any(x >= graph.n or x in graph.hidden for x in (p, q)):
            return 14, 0
        return 0, distances(file, p).get(q, NO_CHAIN)


# From here on: the scripts.

def fold_all(h, numbers):
    for x in numbers:
        h = (h * 65599 + x) % 4294967291
    return h


def halves(words):
    return [x for w in words for x in (w % 2 ** 32, w >> 32)]


def fold_tables(h, tables):
    edges, nodes, keys = tables
    return fold_all(h, halves(edges) + nodes + keys)


def codes(answers):
    return [x % 65536 for x in answers]


def drawn(seed, times, span):
    """The updates of `random`."""
    x, found = seed, []

    def draw(below):
        nonlocal x
        x = (x % 2 ** 31 * 1103515245 + 12345) % 2 ** 31
        return x // 65536 % below if below else 0

    for _ in range(times):
        k, u, v, some = draw(10), draw(span), draw(span), draw(16)
        mark = 2, int(some % 3 == 0)
        kind, wanted = ((1, 1), (1, 1), (1, 1), (1, 0), (1, 0), mark, (2, 0), (3, 0), (3, 0), (some % 5, some // 4))[k]
        second = (256, 255, *[i % 3 for i in range(2, 16)])[some] if k in (7, 8) else v if k < 5 or some == 0 else 0
        found += [kind, u, second, wanted]
    return found


def pair_at(t):
    """The pair at place t of 0 1, 0 2, 1 2, 0 3, ..."""
    high = 1
    while t >= high:
        t -= high
        high += 1
    return t, high


class Script:
    """What the two languages share."""

    def __init__(self, out):
        self.out = out
        self.calls = Calls()
        self.whole = [[7] * 4104, [7] * 2565, [7] * 1026]
        self.n = 0
        self.lent = [0, 0, 0]

    def say(self, *words):
        self.out.write(' '.join(str(w) for w in words) + '\n')

    def on_tables(self, call, *args):
        """A call on the lent parts of the tables: what it returned, and the parts as it left them."""
        parts = [whole[:k] for whole, k in zip(self.whole, self.lent)]
        result = call(self.n, parts, *args)
        for whole, part in zip(self.whole, parts):
            whole[:len(part)] = part
        return result, parts

    def size(self, n):
        self.n, self.lent = n, [ROW_WORDS * n, NODE_NUMBERS * n, 2 * n]

    def lend(self, edges, nodes, keys):
        self.lent = [edges, nodes, keys]

    def applied(self, word, batch, answers, shown):
        result, parts = self.on_tables(self.calls.apply, batch, answers)
        digest = fold_all(0, codes(answers))
        self.say(word, result, 'answers', *answers[:shown], 'digest', digest, 'tables', fold_tables(0, parts))

    def listed(self, result, count, out, shown):
        self.say('neighbours', result, 'count', count, 'buffer', *out[:shown], 'digest', fold_all(0, out))

    def line(self, text):
        words = text.split()
        if text.startswith('#'):
            self.out.write(text)
        elif words:
            about = 'store_' if words[0][0].isupper() else ''
            getattr(self, about + words[0].lower())(*[int(w) if w.isdigit() else w for w in words[1:]])


class IndexScript(Script):
    def __init__(self, out):
        super().__init__(out)
        self.batch = []
        self.store = [7] * (store_words(MOST_NODES) + 8)
        self.room = [0, 0]

    def size(self, n):
        super().size(n)
        self.room = [store_words(n), NAME_BYTES]

    def on_store(self, word, call, *args):
        """A call on the lent parts of the tables and of the store."""
        store = self.store[:self.room[0]]
        result, parts = self.on_tables(call, store, *args)
        self.store[:len(store)] = store
        self.say(word, result, 'tables', fold_tables(0, parts), 'store', fold_all(0, halves(store)))

    def name(self, k):
        """The lent part of the name that a number stands for."""
        return bytes([k % 10] * 8 + [k // 10] * 16)[:self.room[1]]

    def open(self):
        self.on_store('open', self.calls.open)

    def store_keep(self, k):
        self.on_store('keep', self.calls.keep, self.name(k))

    def store_restore(self, k):
        self.on_store('restore', self.calls.restore, self.name(k))

    def store_drop(self, k):
        self.on_store('drop', lambda n, tables, *rest: self.calls.drop(n, *rest), self.name(k))

    def store_lend(self, store, name):
        self.room = [store, name]

    def store_poke(self, i, x):
        if i < min(self.room[0], len(self.store)):
            self.store[i] = x

    def update(self, kind, u, v, wanted):
        self.batch += [kind, u, v, wanted]

    def extra(self, x):
        self.batch += [x]

    def many(self, times, kind, u, v, wanted):
        self.batch += [kind, u, v, wanted] * times

    def block(self, wanted, a, b, c, d):
        for u in range(a, b):
            for v in range(c, d):
                if u < v:
                    self.batch += [1, u, v, wanted]

    def random(self, seed, times, span):
        self.batch += drawn(seed, times, span)

    def apply(self, room, shown):
        self.applied('apply', self.batch, [4660] * room, shown)
        self.batch = []

    def neighbours(self, p, room, shown):
        out = [4660] * room
        (result, count), _ = self.on_tables(self.calls.neighbours, p, out)
        self.listed(result, count, out, shown)

    def tied(self, p, q):
        (result, yes), _ = self.on_tables(self.calls.tied, p, q)
        self.say('tied', result, 'yes' if yes else 'no')

    def group(self, p):
        (result, least, kind, size), _ = self.on_tables(self.calls.group, p)
        self.say('group', result, 'least', least, 'kind', kind, 'size', size)

    def dump(self, a, b):
        for p in range(a, b):
            numbers = self.whole[1][NODE_NUMBERS * p:NODE_NUMBERS * (p + 1)]
            self.say('node', p, 'holds', *numbers, 'keys', *self.whole[2][2 * p:2 * p + 2])

    def flip(self, p, q):
        self.whole[0][8 * p + q // 64] ^= 1 << q % 64

    def put(self, i, x):
        self.whole[1][i] = x

    def key(self, i, x):
        self.whole[2][i] = x

    def walk(self, a, b):
        h = 0
        for i in range(a, b):
            u, v = pair_at((i & -i).bit_length() - 1)
            (_, yes), _ = self.on_tables(self.calls.tied, u, v)
            answers = [4660]
            result, parts = self.on_tables(self.calls.apply, [1, u, v, int(not yes)], answers)
            h = fold_tables(fold_all(h, [result] + codes(answers)), parts)
        self.say('walk digest', h)

    def queries(self, limit):
        h = 0
        for p in range(limit):
            h = fold_all(h, self.on_tables(self.calls.group, p)[0])
            out = [4660] * 1024
            h = fold_all(h, list(self.on_tables(self.calls.neighbours, p, out)[0]) + out)
            for q in range(limit):
                h = fold_all(h, [int(x) for x in self.on_tables(self.calls.tied, p, q)[0]])
        self.say('queries digest', h)


class ReleaseScript(Script):
    """Files are lists of bytes."""

    def __init__(self, out, folder):
        super().__init__(out)
        self.folder = folder
        self.bytes = []

    def file(self, name):
        with open(os.path.join(self.folder, name), 'rb') as f:
            self.bytes = list(f.read())
        self.say('file', name, 'bytes', len(self.bytes))

    def cut(self, length):
        self.bytes = self.bytes[:length]

    def add(self, x):
        self.bytes += [x]

    def byte(self, i, x):
        self.bytes[i] = x

    def read(self):
        result, parts = self.on_tables(self.calls.read, bytes(self.bytes))
        self.say('read', result, 'tables', fold_tables(0, parts))

    def write(self, room):
        out = [165] * room
        (result, m, g, s, length), _ = self.on_tables(self.calls.release, out)
        same = 'yes' if out[:length] == self.bytes else 'no'
        self.say('write', result, 'nodes', m, 'groups', g, 'superedges', s, 'bytes', length, 'same', same, 'digest', fold_all(0, out))

    def neighbours(self, p, room, shown):
        out = [4660] * room
        result, count = self.calls.file_neighbours(bytes(self.bytes), p, out)
        self.listed(result, count, out, shown)

    def asked(self, h, file, p, room):
        out = [4660] * room
        return fold_all(fold_all(h, self.calls.file_neighbours(file, p, out)), out)

    def hops(self, p, q):
        result, distance = self.calls.file_distance(bytes(self.bytes), p, q)
        self.say('hops', result, 'distance', distance)

    def pairs(self, limit):
        h = 0
        for p in range(limit):
            for q in range(limit):
                h = fold_all(h, self.calls.file_distance(bytes(self.bytes), p, q))
        self.say('pairs digest', h)

    def asked_twice(self, h, file, p):
        return fold_all(self.asked(h, file, p, 8), self.calls.file_distance(file, p, 0))

    def queries(self, limit):
        h = 0
        for p in range(limit):
            h = self.asked(h, bytes(self.bytes), p, 8)
            h = self.asked(h, bytes(self.bytes), p, 1024)
        self.say('queries digest', h)

    def update(self, kind, u, v, wanted):
        self.applied('update', [kind, u, v, wanted], [4660], 1)

    def tried(self, tally, file, p):
        """One damaged file: read into tables for six nodes, and asked for the neighbours of p and its distance from node 0."""
        tables = [[7] * (6 * ROW_WORDS), [7] * (6 * NODE_NUMBERS), [7] * 12]
        result = self.calls.read(6, tables, file)
        h = fold_tables(fold_all(tally[1], [result]), tables)
        return tally[0] + (result == 0), self.asked_twice(h, file, p)

    def ends(self):
        tally = 0, 0
        for k in range(len(self.bytes)):
            tally = self.tried(tally, bytes(self.bytes[:k]), k % 8)
        self.say('ends read', tally[0], 'digest', tally[1])

    def damage(self, a, b):
        tally = 0, 0
        for i in range(a, min(b, len(self.bytes))):
            for x in range(256):
                tally = self.tried(tally, bytes(self.bytes[:i] + [x] + self.bytes[i + 1:]), x % 8)
        self.say('damage read', tally[0], 'digest', tally[1])

    def mix(self, seed, times, span):
        h = 0
        for batch in updates_of(drawn(seed, times, span)):
            answers, out = [4660], [165] * 512
            result, _ = self.on_tables(self.calls.apply, batch, answers)
            told, _ = self.on_tables(self.calls.release, out)
            h = fold_all(h, [result] + codes(answers) + list(told) + out)
            h = self.asked_twice(h, bytes(out[:told[4]]), batch[1])
        self.say('mix digest', h)


def main():
    if sys.argv[1] == 'index':
        script = IndexScript(sys.stdout)
    else:
        script = ReleaseScript(sys.stdout, sys.argv[2])
    for text in sys.stdin:
        script.line(text)


if __name__ == '__main__':
    main()
