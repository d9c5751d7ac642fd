"""The hierarchy of roles drawn in layers, seniors above their juniors, as SVG. Where things stand is all that is
decided here."""

from html import escape
from typing import Dict, FrozenSet, List, NamedTuple, Sequence, Set, Tuple

Pair = Tuple[int, int]

# The most roles of a layer side by side, and how wide a row of hierarchies is before the next one begins.
ACROSS = 6
FULL = 780

# The sizes of boxes, bends and gaps, and the longest name that a box has room for.
WIDTH, HEIGHT, GAP, RISE = 172, 46, 16, 42
BEND, CURVE = 8, 14
APART = 36
MARGIN = 12
LONGEST_NAME = 21

# How often the layers are put in order, downward and upward.
SWEEPS = 6


class Node(NamedTuple):
    """A box of the picture: the role's name and number, a line about it, and its classes."""

    name: str
    note: str
    marks: str


# ---- layers ----

def layers_of(roles: Sequence[int], pairs: Sequence[Pair]) -> List[List[int]]:
    """The roles in layers of at most ACROSS, each below its seniors; a loop is broken at its lowest role."""
    above: Dict[int, Set[int]] = {role: {senior for senior, junior in pairs if junior == role} for role in roles}
    layers: List[List[int]] = []
    layer_of: Dict[int, int] = {}
    while len(layer_of) < len(roles):
        left = [role for role in roles if role not in layer_of]
        free = [role for role in left if all(senior in layer_of for senior in above[role])] or left[:1]
        for role in free:
            place = max((layer_of[senior] + 1 for senior in above[role] if senior in layer_of), default=0)
            while place < len(layers) and len(layers[place]) >= ACROSS:
                place += 1
            if place == len(layers):
                layers.append([])
            layers[place].append(role)
            layer_of[role] = place
    return layers


class Picture:
    """Roles in layers, with the bends of lines that pass a layer: an item is a role, or a bend as a pair and its
    layer."""

    def __init__(self, roles: Sequence[int], pairs: Sequence[Pair]) -> None:
        self.pairs = list(pairs)
        real = layers_of(roles, pairs)
        self.layer_of = {role: place for place, layer in enumerate(real) for role in layer}
        self.layers: List[List[object]] = [list(layer) for layer in real]
        for pair in self.pairs:
            for place in range(self.layer_of[pair[0]] + 1, self.layer_of[pair[1]]):
                self.layers[place].append((pair, place))
        self.x: Dict[object, float] = {}
        self.next_to: Dict[object, Tuple[List[object], List[object]]] = self.neighbours()
        self.arrange()

    def stops(self, pair: Pair) -> List[object]:
        """The items on a pair's way down; of a pair that leads upward, as in a loop, its ends."""
        first, last = self.layer_of[pair[0]], self.layer_of[pair[1]]
        return [pair[0], *((pair, place) for place in range(first + 1, last)), pair[1]]

    def neighbours(self) -> Dict[object, Tuple[List[object], List[object]]]:
        """What each item is joined to in the layer above and in the one below."""
        joined: Dict[object, Tuple[List[object], List[object]]] = {item: ([], []) for layer in self.layers for item in layer}
        for pair in self.pairs:
            stops = self.stops(pair)
            for upper, lower in zip(stops, stops[1:]):
                joined[upper][1].append(lower)
                joined[lower][0].append(upper)
        return joined

    def arrange(self) -> None:
        """Puts each layer in the order of what its items are joined to, from the top and from the bottom in turn."""
        for layer in self.layers:
            self.spread(layer)
        for sweep in range(SWEEPS):
            side = sweep % 2
            for layer in self.layers if side == 0 else reversed(self.layers):
                middle = {item: self.middle(item, side) for item in layer}
                layer.sort(key=lambda item: middle[item])
                self.spread(layer)

    def middle(self, item: object, side: int) -> float:
        """Where an item would stand best: amid what it is joined to on a side, or where it is."""
        places = [self.x[other] for other in self.next_to[item][side]]
        return sum(places) / len(places) if places else self.x[item]

    def spread(self, layer: List[object]) -> None:
        """Gives a layer's items their places, centred."""
        widths = [WIDTH if isinstance(item, int) else BEND for item in layer]
        left = -(sum(widths) + GAP * (len(widths) - 1)) / 2
        for item, width in zip(layer, widths):
            self.x[item] = left + width / 2
            left += width + GAP

    def half(self) -> float:
        """Half of the width of the widest layer; a line that leads upward goes beside the boxes."""
        upward = any(self.layer_of[senior] >= self.layer_of[junior] for senior, junior in self.pairs)
        return max(abs(self.x[layer[0]]) + WIDTH / 2 for layer in self.layers) + (3 * CURVE if upward else 0)

    def high(self) -> int:
        """The height of all layers."""
        return len(self.layers) * (HEIGHT + RISE) - RISE


# ---- several hierarchies ----

def components(roles: int, pairs: Sequence[Pair]) -> List[List[int]]:
    """The roles that senior pairs join, hierarchy by hierarchy; a role in no pair stands alone."""
    group = {role: {role} for role in range(roles)}
    for senior, junior in pairs:
        if group[senior] is not group[junior]:
            joined = group[senior] | group[junior]
            group.update({role: joined for role in joined})
    return [sorted(one) for role, one in group.items() if role == min(one)]


class Placed(NamedTuple):
    """A hierarchy and the middle of its width in its row."""

    picture: Picture
    middle: float


def in_rows(pictures: Sequence[Picture]) -> List[List[Placed]]:
    """Hierarchies beside each other, row by row."""
    rows: List[List[Placed]] = []
    left = 0.0
    for picture in pictures:
        if not rows or left + 2 * picture.half() > FULL:
            rows.append([])
            left = 0.0
        rows[-1].append(Placed(picture, left + picture.half()))
        left += 2 * picture.half() + APART
    return rows


# ---- SVG ----

def line_of(placed: Placed, pair: Pair) -> str:
    """The path of a pair, from the senior's lower edge to the junior's upper edge."""
    picture = placed.picture
    x = [picture.x[stop] + placed.middle for stop in picture.stops(pair)]
    first, last = picture.layer_of[pair[0]], picture.layer_of[pair[1]]
    tops = [layer * (HEIGHT + RISE) for layer in range(len(picture.layers))]
    if last <= first:
        out, low, high = placed.middle + picture.half() - CURVE, tops[first] + HEIGHT * 0.6, tops[last] + HEIGHT * 0.4
        return (f"M{x[0] + WIDTH / 2:.1f} {low:.1f}H{out - CURVE:.1f}Q{out:.1f} {low:.1f} {out:.1f} {low - CURVE:.1f}"
                f"V{high + CURVE:.1f}Q{out:.1f} {high:.1f} {out - CURVE:.1f} {high:.1f}H{x[1] + WIDTH / 2:.1f}")
    path = f"M{x[0]:.1f} {tops[first] + HEIGHT:.1f}"
    for step, layer in enumerate(range(first + 1, last + 1), start=1):
        half = tops[layer] - RISE / 2
        path += f"C{x[step - 1]:.1f} {half:.1f} {x[step]:.1f} {half:.1f} {x[step]:.1f} {tops[layer]:.1f}"
        path += f"V{tops[layer] + HEIGHT:.1f}" if layer < last else ""
    return path


def box(role: int, node: Node, x: float, y: float) -> str:
    """A role's box, a link to what is said of the role."""
    name = node.name if len(node.name) <= LONGEST_NAME else node.name[:LONGEST_NAME - 1] + "…"
    note = f"({role})" + (f" · {node.note}" if node.note else "")
    return (f'<a class="node{node.marks}" href="#role-{role}" data-role="{role}">'
            f"<title>{escape(node.name)} {escape(note)}</title>"
            f'<rect x="{x - WIDTH / 2:.1f}" y="{y:.1f}" width="{WIDTH}" height="{HEIGHT}" rx="7"/>'
            f'<text class="name" x="{x:.1f}" y="{y + 20:.1f}">{escape(name)}</text>'
            f'<text class="note" x="{x:.1f}" y="{y + 36:.1f}">{escape(note)}</text></a>')


def boxes_of(placed: Placed, nodes: Sequence[Node]) -> str:
    """The boxes of a hierarchy."""
    picture = placed.picture
    return "".join(box(role, nodes[role], picture.x[role] + placed.middle, layer * (HEIGHT + RISE))
                   for role, layer in sorted(picture.layer_of.items()))


def svg(drawn: str, width: float, height: float) -> str:
    """A row of the picture, which a page of paper keeps together."""
    across, down = width + 2 * MARGIN, height + MARGIN
    return (f'<svg class="hierarchy" xmlns="http://www.w3.org/2000/svg" width="{across:.0f}" height="{down:.0f}" '
            f'viewBox="{-MARGIN} {-MARGIN / 2:.0f} {across:.0f} {down:.0f}" role="group" aria-label="Roles, seniors on top">{drawn}</svg>')


def hierarchy(nodes: Sequence[Node], pairs: Sequence[Pair], red: FrozenSet[Pair] = frozenset()) -> str:
    """The picture of all roles, row by row: those with seniors or juniors in layers, then the others; the pairs of
    `red` drawn as a loop."""
    groups = components(len(nodes), pairs)
    rows = in_rows([Picture(group, [pair for pair in pairs if pair[0] in group]) for group in groups if len(group) > 1])
    alone, across = [group[0] for group in groups if len(group) == 1], (FULL + GAP) // (WIDTH + GAP)
    width = max([min(len(alone), across) * (WIDTH + GAP) - GAP, *(row[-1].middle + row[-1].picture.half() for row in rows)])
    drawn = []
    for row in rows:
        lines = "".join(f'<path class="edge{" loop" if pair in red else ""}" d="{line_of(one, pair)}"/>' for one in row for pair in one.picture.pairs)
        drawn.append(svg(lines + "".join(boxes_of(one, nodes) for one in row), width, max(one.picture.high() for one in row)))
    if alone and rows:
        drawn.append('<p class="sub">Without seniors and juniors</p>')
    for first in range(0, len(alone), across):
        boxes = [box(role, nodes[role], WIDTH / 2 + place * (WIDTH + GAP), 0) for place, role in enumerate(alone[first:first + across])]
        drawn.append(svg("".join(boxes), width, HEIGHT))
    return f'<div class="hierarchies">{"".join(drawn)}</div>'
