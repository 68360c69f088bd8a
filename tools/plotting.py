"""A chart as SVG: lines over sizes, each of which has a place of its own."""
from html import escape

WIDTH, HEIGHT, LEFT, TOP, ACROSS, UP = 640, 360, 70, 50, 540, 240
COLOURS = (("#1b6ca8", "#6cb6f0"), ("#c0392b", "#f08a7e"), ("#2e7d32", "#81c784"))  # in light, in dark


def style():
    yield "<style>text{font:12px sans-serif;fill:#222}.axis{fill:none;stroke:#777}.grid{stroke:#ccc}polyline{fill:none;stroke-width:2}"
    yield "".join(f".line{i}{{stroke:{light}}}.mark{i}{{fill:{light}}}" for i, (light, _) in enumerate(COLOURS))
    yield "@media (prefers-color-scheme:dark){text{fill:#ddd}.grid{stroke:#444}"
    yield "".join(f".line{i}{{stroke:{dark}}}.mark{i}{{fill:{dark}}}" for i, (_, dark) in enumerate(COLOURS)) + "}</style>"


def grid(top, unit):
    for part in range(5):
        height = TOP + UP - UP * part / 4
        yield f'<path d="M{LEFT} {height:.0f}h{ACROSS}" class="grid"/>'
        yield f'<text x="{LEFT - 8}" y="{height + 4:.0f}" text-anchor="end">{top * part / 4:.0f}{escape(unit)}</text>'


def chart(title, sizes, lines, top, unit=""):
    """Yields the lines of an SVG file. `sizes` are the words along the bottom; `lines` has each line's name, and its values or None by
    size.
    """
    places = [LEFT + ACROSS * (i + 0.5) / len(sizes) for i in range(len(sizes))]
    yield f'<svg xmlns="http://www.w3.org/2000/svg" viewBox="0 0 {WIDTH} {HEIGHT}" width="{WIDTH}" height="{HEIGHT}" role="img">'
    yield f"<title>{escape(title)}</title>"
    yield from style()
    yield f'<text x="{LEFT}" y="24" font-weight="bold">{escape(title)}</text>'
    yield from grid(top, unit)
    yield f'<path d="M{LEFT} {TOP}v{UP}h{ACROSS}" class="axis"/>'
    for place, size in zip(places, sizes):
        yield f'<text x="{place:.0f}" y="{TOP + UP + 18}" text-anchor="middle">{escape(size)}</text>'
    for number, (name, values) in enumerate(lines):
        points = [(place, TOP + UP - UP * value / top) for place, value in zip(places, values) if value is not None]
        yield f'<polyline points="{" ".join(f"{x:.0f},{y:.1f}" for x, y in points)}" class="line{number}"/>'
        yield from (f'<circle cx="{x:.0f}" cy="{y:.1f}" r="3.5" class="mark{number}"/>' for x, y in points)
        yield f'<circle cx="{LEFT + 20 + 260 * number}" cy="{HEIGHT - 16}" r="4" class="mark{number}"/>'
        yield f'<text x="{LEFT + 30 + 260 * number}" y="{HEIGHT - 12}">{escape(name)}</text>'
    yield "</svg>"
