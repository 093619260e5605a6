"""Draws lines of speed by the number of patterns as an SVG, on logarithmic axes."""
import math
from xml.sax.saxutils import escape

WIDTH, HEIGHT = 860, 460
LEFT, RIGHT, TOP, BOTTOM = 64, 170, 64, 52
GAP = 16


def chart(title, note, series):
    """An SVG of the series, each a name, a color and points of a number of patterns and MB/s. The first is drawn boldest."""
    points = [point for _, _, line in series for point in line]
    xs = scale([x for x, _ in points], LEFT, WIDTH - RIGHT)
    ys = scale([y * around for _, y in points for around in (0.85, 1.15)], HEIGHT - BOTTOM, TOP)
    parts = [
        f'<svg xmlns="http://www.w3.org/2000/svg" viewBox="0 0 {WIDTH} {HEIGHT}" font-family="sans-serif" font-size="13">',
        f'<rect width="{WIDTH}" height="{HEIGHT}" fill="#ffffff"/>',
        text(LEFT, 26, title, 'font-size="17" font-weight="bold"'),
        text(LEFT, 46, note, 'fill="#555555"'),
    ]
    parts += axes(sorted({x for x, _ in points}), ticks([y for _, y in points]), xs, ys)
    for at, (name, color, line) in reversed(list(enumerate(series))):
        path = " ".join(f"{xs(x):.1f},{ys(y):.1f}" for x, y in line)
        parts.append(f'<polyline points="{path}" fill="none" stroke="{color}" stroke-width="{2 if at else 3.5}"/>')
        parts += [f'<circle cx="{xs(x):.1f}" cy="{ys(y):.1f}" r="{3 if at else 4}" fill="{color}"/>' for x, y in line]
    ends = [(ys(line[-1][1]), xs(line[-1][0]), name, color) for name, color, line in series]
    for y, (_, x, name, color) in zip(spread([end[0] for end in sorted(ends)]), sorted(ends)):
        parts.append(text(x + 10, y + 4, name, f'fill="{color}"'))
    return "\n".join(parts + ["</svg>", ""])


def text(x, y, words, style):
    return f'<text x="{x:.1f}" y="{y:.1f}" {style}>{escape(words)}</text>'


def scale(values, low, high):
    """A function from a value to its place, by logarithms: the least value stands at `low`, and the greatest at `high`."""
    least, most = math.log(min(values)), math.log(max(values))
    return lambda value: low + (math.log(value) - least) / ((most - least) or 1) * (high - low)


def ticks(values):
    """The numbers 1, 2 and 5 times a power of ten between the least value and the greatest."""
    powers = range(math.floor(math.log10(min(values))), math.ceil(math.log10(max(values))) + 1)
    return [it for it in (m * 10**p for p in powers for m in (1, 2, 5)) if min(values) <= it <= max(values)]


def axes(counts, speeds, xs, ys):
    grid, parts = 'stroke="#dddddd"', []
    for speed in speeds:
        parts.append(f'<line x1="{LEFT}" x2="{WIDTH - RIGHT}" y1="{ys(speed):.1f}" y2="{ys(speed):.1f}" {grid}/>')
        parts.append(text(LEFT - 8, ys(speed) + 4, f"{speed:,}", 'text-anchor="end" fill="#555555"'))
    for count in counts:
        parts.append(f'<line x1="{xs(count):.1f}" x2="{xs(count):.1f}" y1="{TOP}" y2="{HEIGHT - BOTTOM}" {grid}/>')
        parts.append(text(xs(count), HEIGHT - BOTTOM + 20, f"{count:,}", 'text-anchor="middle" fill="#555555"'))
    parts.append(text((LEFT + WIDTH - RIGHT) / 2, HEIGHT - 12, "patterns", 'text-anchor="middle" fill="#555555"'))
    return parts


def spread(places):
    """The places, which ascend, moved apart by a line's height, and up where they would pass the lower axis."""
    spread = []
    for place in places:
        least = spread[-1] + GAP if spread else TOP
        spread.append(max(place, least))
    for at in reversed(range(len(places))):
        most = HEIGHT - BOTTOM if at == len(places) - 1 else spread[at + 1] - GAP
        spread[at] = min(spread[at], most)
    return spread
