"""The picture of the layers, docs/layers.svg, from crates.txt: a crate stands below what it stands on. A line that follows from others is left out."""
import os

WIDTH, HEIGHT, GAP, BETWEEN, EDGE = 116, 30, 16, 74, 24
STYLE = """
    svg { font: 14px system-ui, sans-serif; }
    .ground { fill: #ffffff; }
    text { fill: #1c2733; text-anchor: middle; }
    .note { text-anchor: start; font-size: 12px; fill: #52606d; }
    .crate { fill: #eef2f6; stroke: #52606d; }
    .words { fill: #ffffff; stroke: #52606d; stroke-dasharray: 4 3; }
    .program { fill: #dcefdc; stroke: #2f6b3a; }
    .calls { fill: #fbe7c6; stroke: #8a5a00; }
    .line { fill: none; stroke: #9aa5b1; stroke-width: 1.3; }
    @media (prefers-color-scheme: dark) {
      .ground { fill: #14191f; }
      text { fill: #e4e9ee; }
      .note { fill: #a3b0bd; }
      .crate { fill: #26303a; stroke: #8796a5; }
      .words { fill: #14191f; stroke: #8796a5; }
      .program { fill: #1f3b26; stroke: #7fc08c; }
      .calls { fill: #4a3613; stroke: #e0ae4f; }
      .line { stroke: #5c6b7a; }
    }
"""


def read(path="crates.txt"):
    """Each crate with those of the repository that it stands on, in the order of the file."""
    stands = {}
    with open(path, encoding="utf-8") as file:
        for line in file:
            if line.strip() and not line.startswith("#"):
                head, below = line.split(":")
                name = head.split()[0]
                stands[name] = [other for other in below.split() if other in stands]
    return stands


def beneath(stands, name):
    found = set(stands[name])
    for other in stands[name]:
        found |= beneath(stands, other)
    return found


def needed(stands):
    """Without what follows: a crate's line goes only to crates that no other of its crates stands on."""
    return {
        name: [one for one in below if not any(one in beneath(stands, other) for other in below)]
        for name, below in stands.items()
    }


def layers(stands):
    layer = {}
    for name, below in stands.items():
        layer[name] = 1 + max((layer[other] for other in below), default=-1)
    return layer


def kind(name):
    """How a crate is drawn: a program, the crate that hosts call, definitions and laws alone, or code with its contracts."""
    folder = f"crates/{name}/src"
    if os.path.exists(f"{folder}/main.rt"):
        return "program"
    texts = [open(f"{folder}/{file}", encoding="utf-8").read() for file in sorted(os.listdir(folder))] if os.path.isdir(folder) else []
    if any("#[unsafe(no_mangle)]" in text for text in texts):
        return "calls"
    return "crate" if any("fn " in text for text in texts) else "words"


class Drawing:
    """Rows of places. A place is a crate, or a point (line, layer) through which a line passes a layer on its way."""

    def __init__(self, stands):
        self.layer = layers(stands)
        self.rows = [[] for _ in range(1 + max(self.layer.values()))]
        self.up, self.down, self.paths = {}, {}, []
        for name in stands:
            self.rows[self.layer[name]].append(name)
        for name, below in needed(stands).items():
            for other in below:
                between = [((other, name), k) for k in range(self.layer[other] + 1, self.layer[name])]
                for point in between:
                    self.rows[point[1]].append(point)
                path = [other, *between, name]
                self.paths.append(path)
                for a, b in zip(path, path[1:]):
                    self.down.setdefault(a, []).append(b)
                    self.up.setdefault(b, []).append(a)
        self.order()
        self.place()

    def order(self):
        """Each row in the order of the mean places of its neighbours, from above and from below by turns."""
        for turn in range(24):
            rows = range(1, len(self.rows)) if turn % 2 == 0 else range(len(self.rows) - 2, -1, -1)
            near = self.up if turn % 2 == 0 else self.down
            for k in rows:
                other = self.rows[k - 1] if turn % 2 == 0 else self.rows[k + 1]
                at = {place: i for i, place in enumerate(other)}
                own = {place: i for i, place in enumerate(self.rows[k])}

                def mean(place):
                    found = [at[one] for one in near.get(place, []) if one in at]
                    return sum(found) / len(found) if found else own[place] * len(other) / len(own)

                self.rows[k] = sorted(self.rows[k], key=lambda place: (mean(place), own[place]))

    def wide(self, place):
        return WIDTH if isinstance(place, str) else 10

    def place(self):
        """Middles: each as near to its neighbours as those beside it let it."""
        self.x = {}
        for row in self.rows:
            at = 0
            for place in row:
                self.x[place] = at + self.wide(place) / 2
                at += self.wide(place) + GAP
        for turn in range(200):
            for row in self.rows if turn % 2 == 0 else reversed(self.rows):
                wish = {}
                for place in row:
                    near = self.up.get(place, []) + self.down.get(place, [])
                    # A line on its way is straight first of all.
                    if not isinstance(place, str):
                        near = [one for one in near if not isinstance(one, str)] * 8 + near
                    wish[place] = sum(self.x[one] for one in near) / len(near) if near else self.x[place]
                self.settle(row, wish)
        least = min(self.x[place] - self.wide(place) / 2 for place in self.x)
        for place in self.x:
            self.x[place] += EDGE - least

    def settle(self, row, wish):
        """The nearest places in order: runs of places that touch are moved as one."""
        runs = []
        for place in row:
            runs.append([[place], wish[place]])
            while len(runs) > 1 and self.end(runs[-2]) + GAP > self.begin(runs[-1]):
                last, before = runs.pop(), runs.pop()
                members = before[0] + last[0]
                shift = self.offsets(members)
                runs.append([members, sum(wish[one] - shift[one] for one in members) / len(members)])
        for members, at in runs:
            for one, shift in self.offsets(members).items():
                self.x[one] = at + shift

    def offsets(self, members):
        found, at = {}, 0
        for before, place in zip([None, *members], members):
            if before is not None:
                at += (self.wide(before) + self.wide(place)) / 2 + GAP
            found[place] = at
        return found

    def begin(self, run):
        return run[1] - self.wide(run[0][0]) / 2

    def end(self, run):
        return run[1] + self.offsets(run[0])[run[0][-1]] + self.wide(run[0][-1]) / 2

    def top(self, k):
        return EDGE + k * BETWEEN

    def svg(self):
        wide = round(max(self.x[place] + self.wide(place) / 2 for place in self.x)) + EDGE
        notes = [("crate", "code with its contracts"), ("words", "definitions and laws alone"), ("calls", "C functions"), ("program", "a program")]
        high = self.top(len(self.rows)) + 8
        out = [
            f'<svg xmlns="http://www.w3.org/2000/svg" viewBox="0 0 {wide} {high}" width="{wide}" height="{high}" role="img" aria-labelledby="title">',
            '  <title id="title">The crates in layers: each stands on those above it to which a line leads</title>',
            f"  <style>{STYLE}  </style>",
            f'  <rect class="ground" width="{wide}" height="{high}"/>',
        ]
        out += [f'  <path class="line" d="{self.line(path)}"/>' for path in self.paths]
        for row in self.rows:
            for name in (place for place in row if isinstance(place, str)):
                x, y = round(self.x[name]), self.top(self.layer[name])
                out.append(f'  <rect class="{kind(name)}" x="{x - WIDTH // 2}" y="{y}" width="{WIDTH}" height="{HEIGHT}" rx="6"/>')
                out.append(f'  <text x="{x}" y="{y + 20}">{name}</text>')
        at = EDGE
        for shape, words in notes:
            out.append(f'  <rect class="{shape}" x="{at}" y="{high - 28}" width="20" height="14" rx="3"/>')
            out.append(f'  <text class="note" x="{at + 26}" y="{high - 17}">{words}</text>')
            at += 60 + 7 * len(words)
        return "\n".join([*out, "</svg>", ""])

    def line(self, path):
        """Down from a crate, through its points, to the crate that stands on it."""
        marks = [(round(self.x[path[0]]), self.top(self.layer[path[0]]) + HEIGHT)]
        for point in path[1:-1]:
            y = self.top(point[1])
            marks += [(round(self.x[point]), y), (round(self.x[point]), y + HEIGHT)]
        marks.append((round(self.x[path[-1]]), self.top(self.layer[path[-1]])))
        text = f"M{marks[0][0]} {marks[0][1]}"
        for k in range(0, len(marks) - 1, 2):
            (a, b), (c, d) = marks[k], marks[k + 1]
            middle = (b + d) // 2
            text += f" C{a} {middle} {c} {middle} {c} {d}"
            if k + 2 < len(marks):
                text += f" L{marks[k + 2][0]} {marks[k + 2][1]}"
        return text


def picture():
    return Drawing(read()).svg()
