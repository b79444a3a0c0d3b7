"""Draws the pictures of docs/pictures from what pictures/facts says; pictures/run calls it. It reads the facts from standard input, takes the folder for the
pictures as its argument, and uses Python's own library only. Nothing is computed here that a picture claims: ranks, blocks, answers and steps are the facts."""
import sys

INK, FAINT, LINE = "#1d2733", "#66717d", "#9aa5b1"
BLUE, ORANGE, GREEN, PALE = "#2f6db3", "#d9822b", "#3a8f5c", "#eef2f6"
AXES = ["self", "child", "descendant", "descendant-or-self", "parent", "ancestor", "ancestor-or-self", "following", "preceding",
        "following-sibling", "preceding-sibling"]


class Picture:
    """SVG text with a white ground, so that it can be read on any page."""

    def __init__(self, width, height, title):
        self.parts = [
            f'<svg xmlns="http://www.w3.org/2000/svg" viewBox="0 0 {width} {height}" width="{width}" height="{height}" '
            f'font-family="Helvetica, Arial, sans-serif" role="img">',
            f"<title>{title}</title>",
            f'<rect width="{width}" height="{height}" fill="white"/>',
        ]

    def line(self, x1, y1, x2, y2, color=LINE, width=1.5, dash=""):
        dashes = f' stroke-dasharray="{dash}"' if dash else ""
        self.parts.append(f'<line x1="{x1:.1f}" y1="{y1:.1f}" x2="{x2:.1f}" y2="{y2:.1f}" stroke="{color}" stroke-width="{width}"{dashes}/>')

    def box(self, x, y, width, height, fill, stroke="none", round_by=3):
        self.parts.append(f'<rect x="{x:.1f}" y="{y:.1f}" width="{width:.1f}" height="{height:.1f}" rx="{round_by}" fill="{fill}" stroke="{stroke}"/>')

    def circle(self, x, y, radius, fill, stroke, width=1.5):
        self.parts.append(f'<circle cx="{x:.1f}" cy="{y:.1f}" r="{radius}" fill="{fill}" stroke="{stroke}" stroke-width="{width}"/>')

    def text(self, x, y, words, size=13, color=INK, anchor="middle", weight="normal"):
        self.parts.append(f'<text x="{x:.1f}" y="{y:.1f}" font-size="{size}" fill="{color}" text-anchor="{anchor}" font-weight="{weight}">{words}</text>')

    def path(self, points, color, width=2):
        self.parts.append(f'<polyline points="{" ".join(f"{x:.1f},{y:.1f}" for x, y in points)}" fill="none" stroke="{color}" stroke-width="{width}"/>')

    def write(self, folder, name):
        with open(f"{folder}/{name}.svg", "w", encoding="utf-8") as file:
            file.write("\n".join(self.parts + ["</svg>", ""]))


def read_facts(lines):
    """The facts by kind: trees as lists of (pre, name, post, ff, fa, level, block), the rest as lists of numbers."""
    facts = {"entry": {}, "axis": {}, "check": [], "table": {}, "walk": {}}
    for line in lines:
        kind, *rest = line.split()
        if kind == "axis":
            axis, context, *ranks = map(int, rest)
            facts["axis"][axis] = (context, ranks)
        elif kind == "check":
            facts["check"].append(tuple(map(int, rest)))
        else:
            facts[kind].setdefault(rest[0], []).append(tuple(map(int, rest[1:])))
    return facts


def places(tree, left, top, wide, high):
    """Where each entry of a tree is drawn: leaves side by side, a parent over the middle of its children."""
    spot, leaf = {}, 0
    for pre, _, _, _, _, level, block in reversed(tree):
        children = [spot[entry[0]][0] for entry in tree if entry[4] == pre]
        if block == 1:
            x, leaf = -leaf, leaf + 1
        else:
            x = (min(children) + max(children)) / 2
        spot[pre] = (x, level)
    return {pre: (left + (x + leaf - 1) * wide, top + level * high) for pre, (x, level) in spot.items()}


def draw_tree(picture, tree, spot, radius, fill=lambda pre: "white", ring=lambda pre: INK, label=None):
    for pre, _, _, _, fa, _, _ in tree:
        if fa:
            picture.line(*spot[fa], *spot[pre])
    for entry in tree:
        x, y = spot[entry[0]]
        picture.circle(x, y, radius, fill(entry[0]), ring(entry[0]), 3 if ring(entry[0]) != INK else 1.5)
        picture.text(x, y + radius * 0.36, label(entry) if label else entry[0], size=radius, color="white" if fill(entry[0]) in (BLUE, ORANGE, GREEN) else INK)


def draw_ten(facts, folder):
    """The tree with both ranks at each element, and under it each element's block as a bar over the entries."""
    tree = facts["entry"]["ten"]
    picture = Picture(880, 430, "Ten: the tree, its ranks and its blocks")
    spot = places(tree, 60, 50, 78, 78)
    draw_tree(picture, tree, spot, 17, label=lambda entry: entry[1])
    for pre, _, post, _, _, _, _ in tree:
        x, y = spot[pre]
        picture.text(x - 21, y - 10, pre, color=BLUE, anchor="end", weight="bold")
        picture.text(x + 21, y - 10, post, color=ORANGE, anchor="start", weight="bold")
    picture.text(24, 345, "in the circle: the name", anchor="start", color=FAINT)
    picture.text(24, 365, "pre, as elements open", anchor="start", color=BLUE)
    picture.text(24, 385, "post, as they close", anchor="start", color=ORANGE)
    left, wide = 480, 34
    for pre, *_, block in tree:
        y = 52 + (pre - 1) * 32
        picture.box(left + (pre - 1) * wide + 2, y - 11, block * wide - 4, 22, PALE if block == 1 else "#cfe0f3", LINE)
        picture.text(left + (pre - 1) * wide + wide / 2, y + 5, pre, color=BLUE, weight="bold")
    for rank in range(1, 12):
        x = left + (rank - 1) * wide
        picture.line(x, 34, x, 374, color="#dde3e9", width=1)
        picture.text(x + wide / 2, 392, rank if rank < 11 else "n+1", size=11, color=FAINT)
    picture.text(left + 5 * wide, 415, "the block of each entry: from its rank to the entry before its ff", color=FAINT)
    picture.write(folder, "ten")


def draw_axes(facts, folder):
    """One small tree for each axis: the context with a ring, its answer filled."""
    tree = facts["entry"]["ten"]
    picture = Picture(900, 680, "The eleven axes on Ten")
    for axis, name in enumerate(AXES):
        context, ranks = facts["axis"][axis]
        left, top = 30 + (axis % 4) * 220, 50 + (axis // 4) * 220
        picture.text(left + 80, top - 22, f"{name} of {context}", weight="bold")
        spot = places(tree, left, top, 40, 46)
        draw_tree(picture, tree, spot, 12, fill=lambda pre: BLUE if pre in ranks else "white", ring=lambda pre: ORANGE if pre == context else INK)
    left, top = 30 + 3 * 220, 50 + 2 * 220
    picture.circle(left, top + 20, 12, "white", ORANGE, 3)
    picture.text(left + 22, top + 25, "the context", anchor="start")
    picture.circle(left, top + 60, 12, BLUE, INK)
    picture.text(left + 22, top + 65, "in the answer", anchor="start")
    picture.text(left - 12, top + 105, "The numbers are ranks", anchor="start", color=FAINT)
    picture.text(left - 12, top + 125, "as elements open.", anchor="start", color=FAINT)
    picture.write(folder, "axes")


def draw_check(facts, folder):
    """The twenty steps: how many elements are open after each, and the state."""
    states, tree = facts["check"], {entry[0]: entry for entry in facts["entry"]["ten"]}
    picture = Picture(940, 370, "The check's steps on Ten")
    left, wide, floor, high = 90, 40, 230, 40
    depth = lambda top: tree[top][5] + 1 if top else 0
    for level in range(5):
        picture.line(left, floor - level * high, left + 20 * wide, floor - level * high, color="#e3e8ed", width=1)
        picture.text(left - 14, floor - level * high + 4, level, size=11, color=FAINT)
    picture.text(20, 30, "elements open", size=12, color=FAINT, anchor="start")
    for step in range(1, len(states)):
        (_, before, _), (_, top, closed) = states[step - 1], states[step]
        x1, x2 = left + (step - 1) * wide, left + step * wide
        y1, y2 = floor - depth(before) * high, floor - depth(top) * high
        opens = depth(top) > depth(before)
        picture.line(x1, y1, x2, y2, BLUE if opens else ORANGE, 3)
        words, color = (f"{top}", BLUE) if opens else (f"{before}", ORANGE)
        picture.text((x1 + x2) / 2 + (-11 if opens else 11), (y1 + y2) / 2 - 5, words, color=color, weight="bold")
    picture.text(left + 16 * wide + 20, 30, "opens", color=BLUE, weight="bold", anchor="start")
    picture.text(left + 17 * wide + 36, 30, "closes", color=ORANGE, weight="bold", anchor="start")
    for row, name in enumerate(["step", "next", "top", "closed"]):
        y = 270 + row * 24
        picture.text(left - 20, y, name, size=12, color=FAINT, anchor="end")
        for step, state in enumerate(states):
            picture.text(left + step * wide, y, step if row == 0 else state[row - 1], size=12, color=FAINT if row == 0 else INK)
    picture.write(folder, "check")


def draw_walk(facts, folder):
    """Five with its table, the twig, and the candidate at each of the fourteen steps."""
    tree, walk, table = facts["entry"]["five"], facts["walk"]["five"], facts["table"]["five"]
    picture = Picture(940, 400, "The walk on Five, for the twig 1(1)")
    spot = places(tree, 40, 60, 78, 80)
    draw_tree(picture, tree, spot, 15)
    for pre, can, _ in table:
        x, y = spot[pre]
        bits = [q for q in (1, 2) if can >> (q - 1) & 1]
        picture.text(x + 19, y - 7, "can " + " ".join(map(str, bits)) if bits else "can –", size=11, color=GREEN, anchor="start")
    twig = facts["entry"]["pair"]
    below = places(twig, 290, 60, 60, 70)
    draw_tree(picture, twig, below, 13, fill=lambda pre: BLUE if pre == 1 else ORANGE)
    picture.text(290, 30, "twig", color=FAINT)
    picture.text(130, 30, "Five, by rank", color=FAINT)
    left, wide, floor, high = 385, 37, 260, 36
    for rank in range(1, 7):
        y = floor - (rank - 1) * high
        picture.line(left - 10, y, left + 14 * wide + 10, y, color="#e3e8ed", width=1)
        picture.text(left - 24, y + 4, rank if rank < 6 else "n+1", size=11, color=FAINT)
    picture.text(left - 30, 30, "candidate after each step", size=12, color=FAINT, anchor="start")
    points = [(left + step * wide, floor - (state[1] - 1) * high) for step, state in enumerate(walk)]
    picture.path(points, LINE, 1.5)
    for step, ((x, y), (node, _, phase, *images)) in enumerate(zip(points, walk)):
        color = GREEN if phase == 1 else INK if phase == 2 else BLUE if node == 1 else ORANGE
        picture.circle(x, y, 9 if phase == 1 else 7, color, "white", 1.5)
        if phase == 1:
            picture.text(x, y - 15, f"{images[0]} {images[1]}", size=12, color=GREEN, weight="bold")
        for row, value in enumerate([step, node, images[0] or "–", images[1] or "–"]):
            picture.text(x, 300 + row * 22, value, size=12, color=FAINT if row == 0 else INK)
    for row, name in enumerate(["step", "node", "image of 1", "image of 2"]):
        picture.text(left - 24, 300 + row * 22, name, size=12, color=FAINT, anchor="end")
    for at, (color, words) in enumerate([(BLUE, "seeks node 1"), (ORANGE, "seeks node 2"), (GREEN, "an answer"), (INK, "ended")]):
        picture.circle(40, 306 + at * 22, 6, color, "white")
        picture.text(54, 310 + at * 22, words, size=12, anchor="start")
    picture.write(folder, "walk")


def draw_tart(facts, folder):
    """The menu where the filling stands beside the tart, and the question."""
    picture = Picture(620, 290, "The filling beside the tart")
    names = {1: "tray", 2: "tart", 3: "pastry", 4: "cherries"}
    for tree, left, words in [(facts["entry"]["tart"], 90, "the menu"), (facts["entry"]["tart_twig"], 400, "the question")]:
        spot = places(tree, left, 70, 130, 75)
        found = [entry[0] for entry in tree if entry[1] in (2, 3, 4)] if left == 90 else []
        draw_tree(picture, tree, spot, 16, label=lambda entry: entry[1], fill=lambda pre: ORANGE if pre in found else "white")
        for pre, name, *_ in tree:
            picture.text(spot[pre][0] + 22, spot[pre][1] - 8, names[name], size=12, color=FAINT, anchor="start")
        picture.text(left + 65, 30, words, weight="bold")
    picture.text(310, 272, "filled: the trainee's answer; 4 comes after 3, but it is not inside 2", size=12, color=FAINT)
    picture.write(folder, "tart")


def draw_half(facts, folder):
    """The candidate at each step on a chain without an answer: over the whole table and over one of names alone."""
    picture = Picture(940, 360, "Steps over a table of names alone, and over the whole table")
    left, wide, floor, high = 70, 20, 250, 34
    for rank in range(1, 7):
        y = floor - (rank - 1) * high
        picture.line(left - 10, y, left + 42 * wide, y, color="#e3e8ed", width=1)
        picture.text(left - 24, y + 4, rank if rank < 6 else "n+1", size=11, color=FAINT)
    picture.text(20, 30, "candidate after each step, on a chain of five elements named 1, for the twig 1(1(2))", size=12, color=FAINT, anchor="start")
    limit = left + 31 * wide
    picture.line(limit, 38, limit, floor + 14, ORANGE, 2, "5 4")
    picture.text(limit + 8, 46, "the limit, 2×3×5+1 = 31 steps", size=12, color=ORANGE, anchor="start")
    for name, color in [("names", FAINT), ("whole", BLUE)]:
        walk = facts["walk"][name]
        points = [(left + step * wide, floor - (state[1] - 1) * high) for step, state in enumerate(walk)]
        picture.path(points, color, 2)
        for x, y in points:
            picture.circle(x, y, 4.5, color, "white", 1)
        picture.text(points[-1][0] + 10, points[-1][1] - 12, f"ends after {len(walk) - 1}", size=12, color=color, anchor="end", weight="bold")
    for step in range(0, 42, 5):
        picture.text(left + step * wide, floor + 32, step, size=11, color=FAINT)
    picture.text(left + 20 * wide, floor + 56, "step", size=12, color=FAINT)
    for x, color, words in [(90, BLUE, "over our table"), (260, FAINT, "over the trainee's table: the bits of names alone")]:
        picture.circle(x, 336, 6, color, "white")
        picture.text(x + 14, 340, words, size=12, anchor="start")
    picture.write(folder, "half")


def main():
    facts, folder = read_facts(sys.stdin), sys.argv[1]
    for draw in (draw_ten, draw_axes, draw_check, draw_walk, draw_tart, draw_half):
        draw(facts, folder)


main()
