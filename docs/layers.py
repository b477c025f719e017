#!/usr/bin/env python3
"""Draws docs/layers.svg from crates.txt: the crates by layer, and which crate stands on which.

    docs/layers.py            writes the picture
    docs/layers.py --check    says whether the picture is what this script draws from crates.txt now

STOREYS says where each crate stands; a new crate gets its place there. The arrows are crates.txt's, from a crate to one that uses it. A dependency
that follows from others is left out (the transitive reduction), and so are the kit's libraries. Python's standard library alone.
"""
import os
import sys
from collections import namedtuple

HERE = os.path.dirname(os.path.abspath(__file__))
CRATES = os.path.join(HERE, '..', 'crates.txt')
PICTURE = os.path.join(HERE, 'layers.svg')

Layer = namedtuple('Layer', 'title fill shade rows')

# From top to bottom. A storey has layers over the whole width, or layers on its left and on its right side, one below the other. The cells of a row
# divide the width evenly; - is an empty one. A crate stands above those that it uses, or in one row to the right of them.
STOREYS = [
    {'left': [Layer('C', '#f6dcee', '#9b2f7c', ['c_images c_reads c_calls', '- c_answers -'])],
     'right': [Layer('lockplay', '#d2ecec', '#1d7777', [
         'play_calls play_session lockplay', 'play_print play_commands play_lines', '- play_numbers -'])]},
    {'all': [Layer('entries', '#f7d3d3', '#b03030', [
        'entry_image entry_holder entry_read list_walker entry_list entry_locks entry_recovery', '- - - - - entry_laws -'])]},
    {'left': [Layer('the soundness check', '#d3e9d3', '#2f7a2f', [
        'check_queues check_tables', 'check_chains check_names', 'check_resources check_locks', 'check_laws'])],
     'right': [Layer('calls', '#cfe2f7', '#2063a8', [
         'call_arguments call_refusals call_convert - -', 'call_start call_request call_purge call_release call_notice']),
               Layer('queues and deadlock', '#dfd6f2', '#6b47b5', [
                   '- queues marks deadlock_prune deadlock_search', '- flags - deadlock_lines deadlock_owners', '- - - deadlock_graph -'])]},
    {'all': [Layer('the tables in place', '#fbe3c4', '#a86008', ['- table_names - table_chains -', '- table_bytes - table_fields -'])]},
    {'all': [Layer('definitions and laws', '#e4e4e4', '#5a5a5a', ['modes tables rules answers queue_theorem'])]},
]
WIDTH, MARGIN, SPLIT = 1200, 12, 392
SIDES = {'all': (MARGIN, WIDTH - MARGIN), 'left': (MARGIN, SPLIT - 8), 'right': (SPLIT, WIDTH - MARGIN)}
TEXT, CHAR, BOX, TITLE = 14, 8.43, 30, 26  # a name's size and the width of a letter; the heights of a box and of a title
TRACK, PORT, LANE = 9, 12, 10  # how far apart lines are: level ones, those that enter a box, those that pass a row


def fail(text):
    sys.exit('docs/layers.py: ' + text)


def read_crates(path):
    """Each crate and the crates that it names."""
    with open(path) as f:
        lines = [line.split('#')[0].strip() for line in f]
    # a crate's name, after which a static library's line says so; then what it uses
    named = {line.split(':')[0].split()[0]: line.split(':')[1] for line in lines if line}
    return {name: [d for d in deps.split() if d in named] for name, deps in named.items()}


def reduced(deps):
    """The dependencies that do not follow from the others."""
    below = {}

    def reach(name):
        if name not in below:
            below[name] = set(deps[name]).union(*[reach(d) for d in deps[name]])
        return below[name]

    return {n: [d for d in ds if not any(d in reach(e) for e in ds)] for n, ds in deps.items()}


def spread(want, weight, gap, low, high):
    """The places between low and high that are at least gap apart and nearest to the wanted ones, which ascend."""
    pools = []
    for i, (v, w) in enumerate(zip(want, weight)):
        pools.append([v - gap * i, w, 1])
        while len(pools) > 1 and pools[-2][0] > pools[-1][0]:
            b, a = pools.pop(), pools.pop()
            pools.append([(a[0] * a[1] + b[0] * b[1]) / (a[1] + b[1]), a[1] + b[1], a[2] + b[2]])
    starts = [min(max(v, low), high - gap * (len(want) - 1)) for v, _, count in pools for _ in range(count)]
    return [round(v + gap * i) for i, v in enumerate(starts)]


class Picture:
    """Rows are numbered from the ground, 0. The channel c lies between the rows c - 1 and c."""

    def __init__(self, deps):
        self.place()
        lost = sorted(set(deps) ^ set(self.row))
        if lost:
            fail('STOREYS and crates.txt do not have the same crates: ' + ' '.join(lost))
        self.users, self.beside = {n: [] for n in deps}, []
        for user, below in sorted(reduced(deps).items()):
            for n in below:
                if self.row[n] < self.row[user]:
                    self.users[n].append(user)
                elif self.row[n] == self.row[user] and self.x[n] < self.x[user] and not self.between(n, user):
                    self.beside.append((n, user))
                else:
                    fail('%s uses %s and cannot stand where STOREYS has it' % (user, n))
        enters = {n: sum(n in users for users in self.users.values()) for n in deps}
        self.half = {n: max(round(len(n) * CHAR / 2) + 8, PORT * enters[n] // 2 + 6) for n in deps}
        self.choose_lanes()
        self.choose_ports()
        self.choose_tracks()

    def place(self):
        """Row and middle of each crate; the layers with their sides and their rows, first and last from the top."""
        self.x, self.layer, self.bands, from_top, top = {}, {}, [], {}, 0
        for storey in STOREYS:
            end = top + max(sum(len(layer.rows) for layer in layers) for layers in storey.values())
            for side, layers in storey.items():
                left, right = SIDES[side]
                first = top
                for layer in layers:
                    for k, row in enumerate(layer.rows):
                        for j, name in enumerate(row.split()):
                            if name != '-':
                                self.layer[name], from_top[name] = layer, first + k
                                self.x[name] = round(left + (right - left) * (j + 0.5) / len(row.split()))
                    last = end - 1 if layer is layers[-1] else first + len(layer.rows) - 1
                    self.bands.append((layer, side, first, last))
                    first += len(layer.rows)
            top = end
        self.rows = top
        self.row = {n: top - 1 - r for n, r in from_top.items()}

    def between(self, a, b):
        return any(self.row[n] == self.row[a] and self.x[a] < self.x[n] < self.x[b] for n in self.row)

    def choose_lanes(self):
        """Where the line of a crate passes a row: between the boxes, beside other lines and edges, not through a title, with few bends."""
        self.lane = {}
        taken = {r: [] for r in range(self.rows)}
        for n, r in self.row.items():
            taken[r].append((self.x[n] - self.half[n] - 9, self.x[n] + self.half[n] + 9))
        for layer, side, first, last in self.bands:
            taken[self.rows - 1 - first].append((SIDES[side][0], SIDES[side][0] + 20 + 10 * len(layer.title)))
            for r in range(first, last + 1):
                taken[self.rows - 1 - r] += [(edge - 6, edge + 6) for edge in SIDES[side]]
        grid = sorted(set(range(MARGIN + 8, WIDTH - MARGIN - 7, 3)) | set(self.x.values()))
        top = {n: max([self.row[u] for u in users], default=-1) for n, users in self.users.items()}
        for n in sorted(self.users, key=lambda n: (top[n] - self.row[n], n)):
            passed = range(self.row[n] + 1, top[n])
            if not passed:
                continue

            def reach(r, g):  # how far it is from g to those that it reaches at row r
                return sum(abs(g - self.x[u]) for u in self.users[n] if self.row[u] == r)

            def step(p, g):
                return abs(p - g) + (60 if p != g else 0)

            cost, came = {self.x[n]: 0}, []
            for r in passed:
                free = [g for g in grid if not any(a < g < b for a, b in taken[r])]
                back = {g: min(cost, key=lambda p: (cost[p] + step(p, g), p)) for g in free}
                cost = {g: cost[p] + step(p, g) + reach(r, g) / 2 for g, p in back.items()}
                came.append(back)
            g = min(cost, key=lambda p: (cost[p] + reach(top[n], p), p))
            for r, back in zip(reversed(passed), reversed(came)):
                self.lane[n, r] = g
                taken[r].append((g - LANE, g + LANE))
                g = back[g]

    def channel(self, c):
        """The lines in a channel: for each its crate, where it comes from, and the crates that it reaches in row c."""
        for n in sorted(self.users):
            reached = [u for u in self.users[n] if self.row[u] == c]
            if reached or (n, c) in self.lane:
                yield n, self.x[n] if self.row[n] == c - 1 else self.lane[n, c - 1], reached

    def choose_ports(self):
        """Where lines enter a box from below: as straight as can be, no two at one place."""
        self.port = {}
        for c in range(1, self.rows):
            lines = list(self.channel(c))
            busy = [below for _, below, _ in lines] + [self.lane[n, c] for n, _, _ in lines if (n, c) in self.lane]
            for u in sorted(n for n in self.row if self.row[n] == c):
                low, high = self.x[u] - self.half[u] + 9, self.x[u] + self.half[u] - 9
                coming = sorted((below, n) for n, below, reached in lines if u in reached)
                want = [min(max(below, low), high) for below, _ in coming]
                weight = [99 if low <= below <= high else 1 for below, _ in coming]
                for at, (below, n) in zip(spread(want, weight, PORT, low, high), coming):
                    near = sorted(range(at - 9, at + 10), key=lambda p: (abs(p - at), p))
                    free = [p for p in near if p == below or not any(abs(p - b) < 5 for b in busy)]
                    self.port[n, u] = (free or [at])[0]
                    busy.append(self.port[n, u])

    def ends(self, n, c, reached):
        """Where a line leaves a channel at its top: into boxes, and on past the row."""
        return [self.port[n, u] for u in reached] + ([self.lane[n, c]] if (n, c) in self.lane else [])

    def choose_tracks(self):
        """The heights of the level parts in each channel, from below, so that few lines cross."""
        self.track, self.tracks = {}, {0: 0}
        Part = namedtuple('Part', 'crate below above low high')
        for c in range(1, self.rows):
            order = []
            for n, below, reached in self.channel(c):
                above = self.ends(n, c, reached)
                if any(a != below for a in above):
                    order.append(Part(n, below, above, min([below] + above), max([below] + above)))

            def crossed(p, q):  # how often the two cross where p is the lower one
                return sum(q.low < a < q.high for a in p.above) + (p.low < q.below < p.high)

            order.sort(key=lambda p: (p.high - p.low, p.crate))
            better = True
            while better:
                better = False
                for i in range(len(order) - 1):
                    if crossed(order[i], order[i + 1]) > crossed(order[i + 1], order[i]):
                        order[i], order[i + 1] = order[i + 1], order[i]
                        better = True
            for i, p in enumerate(order):  # parts that do not meet share a height
                under = [self.track[q.crate, c] + 1 for q in order[:i] if p.low - 14 < q.high and q.low - 14 < p.high]
                self.track[p.crate, c] = max(under, default=0)
            self.tracks[c] = max([self.track[p.crate, c] + 1 for p in order], default=0)

    def heights(self):
        """The middle of each row, from the top of the picture, and the picture's height."""
        up, found = 0, [0]
        for r in range(1, self.rows):
            titled = any(self.rows - 1 - first == r - 1 for _, _, first, _ in self.bands)
            up += BOX + 30 + TRACK * self.tracks[r] + (TITLE + 14 if titled else 0)
            found.append(up)
        height = up + BOX + TITLE + 40
        return [height - 30 - BOX // 2 - v for v in found], height

    def draw_bands(self, y):
        for layer, side, first, last in self.bands:
            left, right = SIDES[side]
            top, low = y[self.rows - 1 - first] - BOX // 2 - TITLE - 6, y[self.rows - 1 - last] + BOX // 2 + 10
            yield ('<rect x="%d" y="%d" width="%d" height="%d" rx="8" fill="%s" fill-opacity="0.4" stroke="%s" stroke-opacity="0.45"/>'
                   % (left, top, right - left, low - top, layer.fill, layer.shade))
            yield ('<text x="%d" y="%d" font-size="15" font-weight="bold" font-family="DejaVu Sans, Helvetica, Arial, sans-serif" fill="%s">%s</text>'
                   % (left + 10, top + 20, layer.shade, layer.title))

    def draw_line(self, y, c, n, below, reached):
        shade, tops = self.layer[n].shade, self.ends(n, c, reached)
        foot = y[c - 1] - (BOX // 2 if self.row[n] == c - 1 else 0)
        level = y[c] + BOX // 2 + 16 + TRACK * (self.tracks[c] - 1 - self.track.get((n, c), 0))
        path = ''
        for i, at in enumerate(tops):
            top = y[c] + (BOX // 2 if i < len(reached) else 0)
            if at == below:
                path += 'M%d %dV%d' % (below, foot, top)
            else:
                bend = min(5, abs(at - below) // 2) * (1 if at > below else -1)
                path += ('M%d %dV%dQ%d %d %d %dH%dQ%d %d %d %dV%d'
                         % (below, foot, level + 5, below, level, below + bend, level, at - bend, at, level, at, level - 5, top))
        yield '<path d="%s" fill="none" stroke="%s" stroke-width="1.5"/>' % (path, shade)
        for u in reached:
            yield '<path d="M%d %dl-4 8h8z" fill="%s"/>' % (self.port[n, u], y[c] + BOX // 2, shade)
        spots = sorted(set(tops + [below]))
        for at in spots:  # a dot where a line branches
            if (at > spots[0]) + (at < spots[-1]) + (at == below) + (at in tops) > 2:
                yield '<circle cx="%d" cy="%d" r="2.8" fill="%s"/>' % (at, level, shade)

    def draw_boxes(self, y):
        for a, b in self.beside:
            shade, at, end = self.layer[a].shade, y[self.row[a]], self.x[b] - self.half[b]
            yield '<path d="M%d %dH%d" stroke="%s" stroke-width="1.5"/>' % (self.x[a] + self.half[a], at, end - 6, shade)
            yield '<path d="M%d %dl-8 -4v8z" fill="%s"/>' % (end, at, shade)
        for n in sorted(self.row):
            x, at, half = self.x[n], y[self.row[n]], self.half[n]
            yield ('<rect x="%d" y="%d" width="%d" height="%d" rx="5" fill="%s" stroke="%s"/>'
                   % (x - half, at - BOX // 2, 2 * half, BOX, self.layer[n].fill, self.layer[n].shade))
            yield ('<text x="%d" y="%d" font-size="%d" text-anchor="middle" font-family="DejaVu Sans Mono, Menlo, Consolas, monospace" fill="#1a1a1a">%s</text>'
                   % (x, at + 5, TEXT, n))

    def svg(self):
        y, height = self.heights()
        out = ['<svg xmlns="http://www.w3.org/2000/svg" width="%d" height="%d" viewBox="0 0 %d %d">' % (WIDTH, height, WIDTH, height),
               '<title>The crates by layer, and which stands on which</title>',
               '<rect width="%d" height="%d" rx="10" fill="#fdfdfb"/>' % (WIDTH, height)]
        out += self.draw_bands(y)
        for c in range(1, self.rows):
            for n, below, reached in self.channel(c):
                out += self.draw_line(y, c, n, below, reached)
        out += self.draw_boxes(y)
        return '\n'.join(out + ['</svg>']) + '\n'


def main(words):
    if words not in ([], ['--check']):
        sys.exit(__doc__)
    drawn = Picture(read_crates(CRATES)).svg()
    if not words:
        with open(PICTURE, 'w') as f:
            f.write(drawn)
        return
    if not os.path.exists(PICTURE) or open(PICTURE).read() != drawn:
        fail('docs/layers.svg is not what crates.txt says: run docs/layers.py')
    print('docs/layers.svg is what crates.txt says')


main(sys.argv[1:])
