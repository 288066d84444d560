"""A plot of measurements as SVG: a group of bars for each case, on a logarithmic scale."""
import math
from xml.sax.saxutils import escape

LEFT, RIGHT, TOP, BAR, GAP, WIDTH = 190, 70, 50, 14, 12, 860
COLORS = ["#1b6ca8", "#4da3d8", "#9ccbeb", "#c8553d", "#e0a458", "#777777", "#aaaaaa"]


def text(x, y, words, anchor="start", size=12):
    """A line of words."""
    return f'<text x="{x:.1f}" y="{y:.1f}" text-anchor="{anchor}" font-size="{size}">{escape(words)}</text>'


def scale_of(seconds):
    """The powers of ten below and above all times, and the place of a time between them."""
    low = math.floor(math.log10(min(seconds)))
    high = max(low + 1, math.ceil(math.log10(max(seconds))))
    return low, high, lambda time: LEFT + (math.log10(time) - low) / (high - low) * (WIDTH - LEFT - RIGHT)


def axis(low, high, place, bottom):
    """A line for each power of ten."""
    lines = []
    for power in range(low, high + 1):
        x = place(10.0 ** power)
        lines.append(f'<line x1="{x:.1f}" y1="{TOP}" x2="{x:.1f}" y2="{bottom}" stroke="#dddddd"/>')
        lines.append(text(x, bottom + 16, f"{10.0 ** power:g} s", "middle", 11))
    return lines


def legend(names):
    """The colors of the programs."""
    lines, x = [], LEFT
    for name, color in zip(names, COLORS):
        lines += [f'<rect x="{x}" y="26" width="12" height="12" fill="{color}"/>', text(x + 17, 36, name)]
        x += 40 + 7 * len(name)
    return lines


def bars(cases, names, place):
    """The bars of all cases, and the place below the last one; a case is a title and times, None where there is none."""
    lines, y = [], TOP + GAP
    for title, times in cases:
        shown = [(time, color) for time, color in zip(times, COLORS) if time is not None]
        lines.append(text(LEFT - 8, y + len(shown) * BAR / 2 + 4, title, "end"))
        for time, color in shown:
            lines.append(f'<rect x="{LEFT}" y="{y}" width="{place(time) - LEFT:.1f}" height="{BAR - 2}" fill="{color}"/>')
            lines.append(text(place(time) + 4, y + BAR - 4, f"{time:.3g}", size=10))
            y += BAR
        y += GAP
    return lines, y


def plot(title, names, cases):
    """The plot of cases, each a title and the seconds of each of the names."""
    low, high, place = scale_of([time for _, times in cases for time in times if time is not None])
    drawn, bottom = bars(cases, names, place)
    body = [text(LEFT, 18, title, size=14), *legend(names), *axis(low, high, place, bottom), *drawn]
    head = f'<svg xmlns="http://www.w3.org/2000/svg" width="{WIDTH}" height="{bottom + 26}" font-family="sans-serif">'
    return "\n".join([head, f'<rect width="{WIDTH}" height="{bottom + 26}" fill="white"/>', *body, "</svg>"]) + "\n"
