"""Pictures of graphs, as SVG: a circle for each hypothesis, an arrow for each edge, a colour for each component.

A circle has the label of a hypothesis, its weight in each component and its p-value. An arrow has its edge. The legend has the level
and the shares. With the steps of a decision, what it rejects is filled and has the number of its step.
"""
import math
import re
import textwrap
from fractions import Fraction
from html import escape
from typing import Dict, List, Mapping, NamedTuple, Optional, Sequence, Tuple

from ._labels import explained_tags, lines_of, tags_of
from ._results import Component, Number, Quotient

COLOURS = ["#1f4e9e", "#b3541e", "#2e7d32", "#7b1fa2", "#00838f", "#8d6e00", "#ad1457", "#455a64"]
RADIUS, GAP, HIGH = 40, 200, 215
POWERS = ["", "ε", "ε²", "ε³", "ε⁴"]
MOST_INSIDE = 10  # characters of a label that has room in its circle
WIDEST_LEGEND = 90  # characters of a line of the legend
_NOT_OF_XML = re.compile("[^\t\n\r -\ud7ff\ue000-\ufffd\U00010000-\U0010ffff]")

Point = Tuple[float, float]
Centres = Sequence[Point]
Line = Tuple[str, str]


class Drawn(NamedTuple):
    """What a picture shows: the labels in their order, the level, the p-values by label if there are any, and the graphs, which lack
    what has been removed."""

    labels: Sequence[str]
    alpha: Optional[Fraction]
    p: Optional[Mapping[str, Fraction]]
    components: Sequence[Component]


class Edge(NamedTuple):
    """An edge: the places of its ends, its component from 0, and its value."""

    start: int
    end: int
    component: int
    value: Number


# ---- numbers


def short(x: Fraction) -> str:
    """Returns a fraction, or its approximate value if it is long; above all doubles the power of ten before it."""
    if len(str(x)) <= 9:
        return str(x)
    return f"≈{float(x):.4g}" if x < 10**300 else f"≈10^{len(str(x.numerator // x.denominator)) - 1}"


def decimal(x: Fraction) -> str:
    """Returns a fraction as a decimal, if it has one of at most six places."""
    return f"{float(x):.6f}".rstrip("0").rstrip(".") if 10**6 % x.denominator == 0 else short(x)


def _polynomial_text(coefficients: Sequence[Fraction]) -> str:
    text = ""
    for power, x in enumerate(coefficients):
        if x:
            size = "" if abs(x) == 1 and power else short(abs(x))
            epsilon = POWERS[power] if power < len(POWERS) else f"ε^{power}"
            text += ("−" if x < 0 else "+") + size + ("·" if size and power else "") + epsilon
    return text[1:] if text.startswith("+") else text


def _whole(x: Quotient) -> Tuple[List[Fraction], List[Fraction]]:
    """Returns the parts of a quotient as whole numbers without a common factor."""
    scale = Fraction(math.lcm(*(it.denominator for it in x.numerator + x.denominator)))
    parts = [[it * scale for it in part] for part in (x.numerator, x.denominator)]
    content = math.gcd(*(it.numerator for part in parts for it in part)) or 1
    return [it / content for it in parts[0]], [it / content for it in parts[1]]


def number_text(x: Number) -> str:
    """Returns an edge as `welungad canon` prints it, but for long fractions and the signs of epsilon and of products. A long quotient is
    given by its first term."""
    if not isinstance(x, Quotient):
        return _polynomial_text([x])
    above, below = _whole(x)
    if len(below) == 1:
        return _polynomial_text([it / below[0] for it in above])
    parts = [_polynomial_text(part) for part in (above, below)]
    text = "/".join(f"({part})" if re.search("[+−/·]", part[1:]) else part for part in parts)
    if len(text) <= 15:
        return text
    first, second = (next(i for i, it in enumerate(part) if it) for part in (above, below))
    return "≈" + re.sub("^≈", "", _polynomial_text([Fraction(0)] * (first - second) + [above[first] / below[second]]))


def limit(x: Number) -> Fraction:
    """Returns a number with epsilon at 0."""
    return x.numerator[0] / x.denominator[0] if isinstance(x, Quotient) else x


def is_zero(x: Number) -> bool:
    """Whether a number is 0, and not only its limit."""
    return not any(x.numerator) if isinstance(x, Quotient) else x == 0


# ---- where the circles are


def _row_of(count: int, y: float, wide: float) -> List[Point]:
    return [((wide - (count - 1) * GAP) / 2 + i * GAP, y) for i in range(count)]


def centres_of(graph: Drawn, edges: Sequence[Edge]) -> List[Point]:
    """Returns the places of the circles: in one row if each edge leads to the next hypothesis, in two if some hypotheses begin without
    a weight, else round."""
    count = len(graph.labels)
    begins = [any(not is_zero(part.weights.get(label, Fraction(0))) for part in graph.components) for label in graph.labels]
    upper, lower = ([i for i in range(count) if begins[i] is has] for has in (True, False))
    if count <= 2 or all(it.end == it.start + 1 for it in edges):
        return _row_of(count, 0, 0)
    if upper and lower and max(len(upper), len(lower)) <= 8 and len(lower) > 1:
        wide = GAP * (max(len(upper), len(lower)) - 1)
        found = dict(zip([*upper, *lower], _row_of(len(upper), 0, wide) + _row_of(len(lower), HIGH, wide)))
        return [found[i] for i in range(count)]
    radius = max(0.62 * GAP, 0.19 * GAP * count)
    turns = [math.radians(360 * i / count - 90 - (180 / count if count % 2 == 0 else 0)) for i in range(count)]
    return [(radius * math.cos(turn), radius * math.sin(turn)) for turn in turns]


def _outwards(centre: Centres, i: int) -> Point:
    """Returns the direction in which the fewest arrows leave a circle: up in one row, else away from the middle."""
    x, y = (sum(values) / len(centre) for values in zip(*centre))
    rows = {round(v) for _, v in centre}
    if len(rows) == 1:
        return (0, -1)
    across, down = (0.0, centre[i][1] - y) if len(rows) == 2 else (centre[i][0] - x, centre[i][1] - y)
    length = math.hypot(across, down) or 1
    return (across / length, down / length)


# ---- arrows


class Curve:
    """A curve from one circle to another, bowed to its left."""

    def __init__(self, start: Point, end: Point, bow: float):
        (x, y), (u, v) = start, end
        self.length = math.hypot(u - x, v - y)
        self.left = ((v - y) / self.length, (x - u) / self.length)
        middle = ((x + u) / 2 + 2 * bow * self.left[0], (y + v) / 2 + 2 * bow * self.left[1])
        self.points = [self.rim(start, middle, RADIUS), middle, self.rim(end, middle, RADIUS + 5)]

    @staticmethod
    def rim(centre: Point, towards: Point, radius: float) -> Point:
        """Returns the point of a circle that is nearest to another point."""
        angle = math.atan2(towards[1] - centre[1], towards[0] - centre[0])
        return (centre[0] + radius * math.cos(angle), centre[1] + radius * math.sin(angle))

    def at(self, t: float) -> Point:
        """Returns the point of the curve at t, from 0 to 1."""
        (a, b), (c, d), (e, f) = self.points
        s = 1 - t
        return (s * s * a + 2 * s * t * c + t * t * e, s * s * b + 2 * s * t * d + t * t * f)


def _bow_of(edges: Sequence[Edge], edge: Edge, centre: Centres) -> float:
    """Returns how far an arrow is bowed to its left: by its component if several have it, more if the way back or a circle is between.
    In one of two rows an arrow past a circle is bowed away from the other row."""
    i, j, c, _ = edge
    fellows = [it.component for it in edges if (it.start, it.end) == (i, j)]
    meets = any((it.end, it.start) == (i, j) for it in edges)
    length = math.dist(centre[i], centre[j])
    ways = [math.dist(centre[i], spot) + math.dist(spot, centre[j]) for k, spot in enumerate(centre) if k not in (i, j)]
    passes = any(way < length + 20 for way in ways)
    bow = (22 if meets or len(fellows) > 1 else 0) + 26 * fellows.index(c) + (0.2 * length if passes else 0)
    rows = sorted({round(y) for _, y in centre})
    leftwards, lower = centre[j][0] < centre[i][0], round(centre[i][1]) == rows[-1]
    return -bow - 34 if passes and len(rows) == 2 and leftwards != lower else bow


def _curve_of(edges: Sequence[Edge], edge: Edge, centre: Centres) -> Curve:
    return Curve(centre[edge.start], centre[edge.end], _bow_of(edges, edge, centre))


def _arrows(edges: Sequence[Edge], centre: Centres, prefix: str) -> List[str]:
    """Returns the lines of all arrows, and then their texts, which are put on top; each text is placed so that it covers no other."""
    lines, texts, taken = [], [], [*centre]
    for edge in edges:
        curve, colour = _curve_of(edges, edge, centre), COLOURS[edge.component % 8]
        (a, b), (p, q), (e, f) = curve.points
        lines.append(
            f'<path d="M{a:.1f},{b:.1f} Q{p:.1f},{q:.1f} {e:.1f},{f:.1f}" fill="none" stroke="{colour}" '
            f'stroke-width="1.6" marker-end="url(#{prefix}head{edge.component % 8})"/>'
        )
        text = number_text(edge.value)
        wide = 8.2 * len(text) + 6
        spots = [curve.at(t) for t in (0.36, 0.3, 0.42, 0.24, 0.48, 0.54, 0.6)]
        x, y = max(spots, key=lambda spot: min([70, *(math.hypot((spot[0] - u) * 0.7, spot[1] - v) for u, v in taken)]))
        taken.append((x, y))
        texts.append(f'<rect x="{x - wide / 2:.1f}" y="{y - 10:.1f}" width="{wide:.1f}" height="19" rx="4" fill="#fff"/>')
        texts.append(_text_at(x, y + 5, text, 14, colour))
    return lines + texts


# ---- texts and circles


def _escaped(text: str) -> str:
    """Returns a text as an SVG file has it. A character that no such file may have is shown as one that is not known."""
    return escape(_NOT_OF_XML.sub("\ufffd", text))


def _text_at(x: float, y: float, text: str, size: float, colour: str = "#111", anchor: str = "middle", weight: str = "normal") -> str:
    return (
        f'<text x="{x:.1f}" y="{y:.1f}" font-size="{size:.1f}" fill="{colour}" text-anchor="{anchor}" '
        f'font-weight="{weight}">{_escaped(text)}</text>'
    )


def has_tags(labels: Sequence[str]) -> bool:
    """Whether a picture has tags in place of labels, since one of these has no room for all of its lines."""
    return None in map(lines_of, labels)


def _shown(labels: Sequence[str]) -> List[List[str]]:
    """Returns the lines of each label in a picture, or the tags."""
    return [[tag] for tag in tags_of(labels)] if has_tags(labels) else [lines_of(label) or [] for label in labels]


def _circle(graph: Drawn, i: int, centre: Centres, name: Sequence[str], step: Optional[str]) -> List[str]:
    """Returns a hypothesis: its circle, label, weights, p-value, and the step at which it is rejected."""
    x, y = centre[i]
    label, fill = graph.labels[i], "#cfe3cf" if step else "#fff"
    drawn = [f'<circle cx="{x:.1f}" cy="{y:.1f}" r="{RADIUS}" fill="{fill}" stroke="#111" stroke-width="1.6"/>']
    across, down = _outwards(centre, i)
    if len(name) == 1 and len(name[0]) <= MOST_INSIDE:
        drawn.append(_text_at(x, y - 11, name[0], min(16, 2 * RADIUS / (0.7 * max(len(name[0]), 4))), weight="bold"))
    else:
        above = 15 * (len(name) - 1) if down <= 0 else 0
        first = y + (RADIUS + 25) * (-1 if down <= 0 else 1) - above
        drawn += [_text_at(x, first + 15 * n, line, 12, weight="bold") for n, line in enumerate(name)]
    weights = [(short(limit(part.weights[label])), COLOURS[c % 8] if len(graph.components) > 1 else "#111")
               for c, part in enumerate(graph.components) if label in part.weights]
    wide = 2 * RADIUS * 0.75 / max(1, len(weights))
    for n, (weight, colour) in enumerate(weights):
        size = min(15, 1.7 * wide / max(3, len(weight)))
        drawn.append(_text_at(x + (n - (len(weights) - 1) / 2) * wide, y + 7, weight, size, colour))
    if graph.p:
        text = f"p {decimal(graph.p[label])}"
        drawn.append(_text_at(x, y + 24, text, min(12, 2 * RADIUS / (0.72 * len(text))), "#333"))
    if step:
        x, y = x + RADIUS * across, y + RADIUS * down
        drawn.append(f'<circle cx="{x:.1f}" cy="{y:.1f}" r="11" fill="#2e6b34"/>')
        drawn.append(_text_at(x, y + 4.5, step, 13, "#fff", weight="bold"))
    return drawn


def _legend(graph: Drawn, edges: Sequence[Edge], has_steps: bool, with_tags: bool) -> List[Line]:
    """Returns the lines below the picture with their colours."""
    lines = [("#111", f"level α = {decimal(graph.alpha)}")] if graph.alpha is not None else []
    if len(graph.components) > 1 or graph.components[0].share != 1:
        lines += [(COLOURS[c % 8], f"component {c + 1}: share {part.share}") for c, part in enumerate(graph.components)]
    if any("ε" in number_text(edge.value) for edge in edges):
        lines.append(("#111", "ε: a positive number below every positive fraction"))
    if has_steps:
        lines.append(("#111", "filled: rejected, with the number of the step"))
    if with_tags:
        for tag, label in explained_tags(graph.labels).items():
            lines += [("#111", line) for line in textwrap.wrap(f"{tag}: {label}", WIDEST_LEGEND, subsequent_indent=4 * "\u00a0")]
    return lines


def edges_of(graph: Drawn) -> List[Edge]:
    """Returns the edges that are not 0."""
    places = {label: i for i, label in enumerate(graph.labels)}
    return [Edge(places[start], places[end], c, value) for c, part in enumerate(graph.components)
            for (start, end), value in part.edges.items() if not is_zero(value)]


def _frame(edges: Sequence[Edge], centre: Centres, names: Sequence[Sequence[str]], lines: Sequence[Line]) -> Tuple[float, float, float, float]:
    """Returns the left, upper, right and lower end of a picture, which has the lines of the legend at its lower end."""
    xs, ys = [x for x, _ in centre], [y for _, y in centre]
    far = max([0.0, *(abs(_bow_of(edges, it, centre)) for it in edges if round(ys[it.start]) == round(ys[it.end]))])
    side = max(75, *(4 * len(line) for name in names for line in name))
    most = max(map(len, names))
    beside = most > 1 or any(len(name[0]) > MOST_INSIDE for name in names)
    high = max(RADIUS + (40 if beside else 25) + 15 * (most - 1), far + 18)
    bends = [_curve_of(edges, it, centre).at(t) for it in edges for t in (0.25, 0.5, 0.75)]
    left = min([min(xs) - side, *(x - 30 for x, _ in bends)])
    right = max([max(xs) + side, *(x + 30 for x, _ in bends), left + 30 + max([0.0, *(8.2 * len(text) for _, text in lines)])])
    top = min([min(ys) - high, *(y - 15 for _, y in bends)])
    return left, top, right, max([max(ys) + high, *(y + 15 for _, y in bends)]) + 18 + 20 * len(lines)


def _opening(size: Tuple[float, float, float, float], prefix: str, title: Optional[str], description: str) -> str:
    """Returns the first tag of a picture. With a title it names and describes itself to readers that do not see it."""
    left, top, right, bottom = size
    box = f"{left:.0f} {top:.0f} {right - left:.0f} {bottom - top:.0f}"
    font = 'font-family="DejaVu Sans, Verdana, Helvetica, sans-serif"'
    tag = f'<svg xmlns="http://www.w3.org/2000/svg" viewBox="{box}" width="{right - left:.0f}" height="{bottom - top:.0f}" {font}'
    if title is None:
        return tag + ">"
    texts = f'<title id="{prefix}title">{_escaped(title)}</title>\n<desc id="{prefix}desc">{_escaped(description)}</desc>'
    return f'{tag} role="img" aria-labelledby="{prefix}title {prefix}desc">\n{texts}'


def picture_of(graph: Drawn, steps: Optional[Mapping[str, int]] = None, centre: Optional[Centres] = None, prefix: str = "",
               title: Optional[str] = None, description: str = "", with_tags: bool = True) -> str:
    """Returns the text of the SVG file. `steps` gives the number of the step of each rejected label, `centre` the place of each circle,
    `prefix` how the names in the picture begin. `with_tags` is false if a list of the tags is elsewhere."""
    edges = edges_of(graph)
    centre = centre or centres_of(graph, edges)
    names = _shown(graph.labels)
    lines = _legend(graph, edges, steps is not None, with_tags and has_tags(graph.labels))
    size = left, _, _, bottom = _frame(edges, centre, names, lines)
    drawn = _arrows(edges, centre, prefix)
    numbers: Dict[str, str] = {label: str(number) for label, number in (steps or {}).items()}
    for i, label in enumerate(graph.labels):
        drawn += _circle(graph, i, centre, names[i], numbers.get(label))
    first = bottom - 20 * len(lines)
    drawn += [_text_at(left + 16, first + 20 * n, text, 14, colour, "start") for n, (colour, text) in enumerate(lines)]
    heads = "".join(
        f'<marker id="{prefix}head{c}" viewBox="0 0 10 10" refX="8" refY="5" markerWidth="7" markerHeight="7" orient="auto">'
        f'<path d="M0,1 L9,5 L0,9 z" fill="{COLOURS[c]}"/></marker>'
        for c in sorted({it.component % 8 for it in edges})
    )
    paper = f'<rect x="{left:.0f}" y="{size[1]:.0f}" width="100%" height="100%" fill="#fff"/>'
    return "\n".join([_opening(size, prefix, title, description), f"<defs>{heads}</defs>", paper, *drawn, "</svg>", ""])
