"""The picture of docs/SPEED.md: nanoseconds a word by the size of the heap, a line for each program."""
import math
from collections.abc import Iterator

WIDTH, HEIGHT = 790, 400
LEFT, RIGHT, TOP, BOTTOM = 60, 210, 50, 50
STYLE = """text { fill: #111 }
.page { fill: #fff }
.axis { stroke: #999; stroke-width: 1 }
.grid { stroke: #ddd; stroke-width: 1 }
.line0 { stroke: #8a4b00 } .dot0 { fill: #8a4b00 }
.line1 { stroke: #00508f } .dot1 { fill: #00508f }
.line2 { stroke: #00693a } .dot2 { fill: #00693a }
.line { fill: none; stroke-width: 2.5 }
.line0 { stroke-dasharray: 7 4 }
@media (prefers-color-scheme: dark) {
text { fill: #eee }
.page { fill: #16181c }
.grid { stroke: #333 }
.line0 { stroke: #ffc27a } .dot0 { fill: #ffc27a }
.line1 { stroke: #8cc2ff } .dot1 { fill: #8cc2ff }
.line2 { stroke: #6fdc9f } .dot2 { fill: #6fdc9f }
}"""

# Of each program its nanoseconds a word by the MiB of the heap.
Lines = dict[str, dict[int, float]]


class Scale:
    """Where figures lie: sizes by their logarithms, times from 0 up."""

    def __init__(self, lines: Lines):
        self.sizes = sorted({mib for points in lines.values() for mib in points})
        most = max(time for points in lines.values() for time in points.values())
        self.step = next(step for step in (1, 2, 5, 10, 20, 50, 100, 200, 500) if most <= 7 * step)
        self.top = self.step * math.ceil(most / self.step)

    def x(self, mib: int) -> float:
        low, high = (math.log2(size) for size in (self.sizes[0], self.sizes[-1]))
        return LEFT + (WIDTH - LEFT - RIGHT) * (math.log2(mib) - low) / max(1e-9, high - low)

    def y(self, time: float) -> float:
        return HEIGHT - BOTTOM - (HEIGHT - TOP - BOTTOM) * time / self.top


def axes(scale: Scale) -> Iterator[str]:
    right = WIDTH - RIGHT
    for time in range(0, scale.top + 1, scale.step):
        y = scale.y(time)
        kind = "grid" if time else "axis"
        yield f'<line class="{kind}" x1="{LEFT}" y1="{y:.1f}" x2="{right}" y2="{y:.1f}"/>'
        yield f'<text x="{LEFT - 8}" y="{y + 5:.1f}" text-anchor="end">{time}</text>'
    for mib in scale.sizes:
        x, name = scale.x(mib), f"{mib} MiB" if mib < 1024 else f"{mib // 1024} GiB"
        yield f'<line class="axis" x1="{x:.1f}" y1="{scale.y(0):.1f}" x2="{x:.1f}" y2="{scale.y(0) + 5:.1f}"/>'
        yield f'<text x="{x:.1f}" y="{HEIGHT - BOTTOM + 22}" text-anchor="middle">{name}</text>'


def label_places(ends: list[float]) -> list[float]:
    """Where labels stand that should be at these heights, so that none covers another."""
    places = dict.fromkeys(range(len(ends)), 0.0)
    last = -math.inf
    for k in sorted(places, key=ends.__getitem__):
        last = places[k] = max(ends[k], last + 18)
    return list(places.values())


def drawn(lines: Lines, scale: Scale) -> Iterator[str]:
    ends = [scale.y(points[max(points)]) for points in lines.values()]
    for k, ((name, points), place) in enumerate(zip(lines.items(), label_places(ends))):
        at = [(scale.x(mib), scale.y(time)) for mib, time in sorted(points.items())]
        path = " ".join(f"{x:.1f},{y:.1f}" for x, y in at)
        yield f'<polyline class="line line{k}" points="{path}"/>'
        for (x, y), (mib, time) in zip(at, sorted(points.items())):
            yield f'<circle class="dot{k}" cx="{x:.1f}" cy="{y:.1f}" r="4"><title>{name}, {mib} MiB: {time:.1f}</title></circle>'
        yield f'<text class="dot{k}" x="{at[-1][0] + 12:.1f}" y="{place + 5:.1f}">{name}: {points[max(points)]:.1f}</text>'


def picture(lines: Lines, what: str) -> str:
    """An SVG file. `what` says which heaps were collected."""
    scale = Scale(lines)
    body = "\n".join([*axes(scale), *drawn(lines, scale)])
    return f"""<?xml version="1.0" encoding="UTF-8"?>
<svg xmlns="http://www.w3.org/2000/svg" font-family="sans-serif" font-size="14" width="100%" viewBox="0 0 {WIDTH} {HEIGHT}" \
style="max-width:{WIDTH}px">
<title>Nanoseconds a word by the size of the heap</title>
<desc>{what}</desc>
<style>
{STYLE}
</style>
<rect class="page" width="{WIDTH}" height="{HEIGHT}"/>
<text x="{LEFT - 44}" y="26" font-weight="bold">Nanoseconds a word of the heap: {what}</text>
{body}
</svg>
"""
