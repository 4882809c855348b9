"""Pictures of what was measured, as SVG: ratios with their spread, and curves."""
import math
import textwrap

COLOURS = {"ours": "#111111", "sc": "#1f5fa8", "ar": "#c2571a", "pb": "#2f855a", "C": "#7b3fa0"}


def said(number):
    return f"{number:,.0f}" if number >= 1000 else f"{number:g}"


def text(x, y, words, more=""):
    return f'<text x="{x:.1f}" y="{y:.1f}"{more}>{words}</text>'


def line(x1, y1, x2, y2, stroke, more=""):
    return f'<line x1="{x1:.1f}" y1="{y1:.1f}" x2="{x2:.1f}" y2="{y2:.1f}" stroke="{stroke}"{more}/>'


def framed(width, height, parts, title, about):
    """A picture of this size, with a title and a sentence for readers who do not see it."""
    head = (f'<svg xmlns="http://www.w3.org/2000/svg" width="{width}" height="{height}" font-family="sans-serif" '
            'font-size="11" role="img" aria-labelledby="t d">')
    said = [f'<title id="t">{title}</title>', *textwrap.wrap(f'<desc id="d">{about}</desc>', 120)]
    return "\n".join([head, *said, '<rect width="100%" height="100%" fill="#fff"/>', *parts, "</svg>"]) + "\n"


def scale(low, high, start, length):
    """The place of a number on a logarithmic scale."""
    def at(number):
        part = math.log(min(max(number, low), high) / low) / math.log(high / low)
        return start + length * part
    return at


def powers(numbers):
    """The powers of two from the last one below these numbers to the first one above them."""
    low, high = math.floor(math.log2(min(numbers))), math.ceil(math.log2(max(numbers)))
    return [2.0 ** it for it in range(low, high + 1)]


def ratios(sections, key, title):
    """A row for each figure: a dot for the median of the sets, a bar over all rounds. The scale has room for all.

    A section is a title and rows (label, [(colour, dot, low, high)]); `key` says which colour is what."""
    left, width, row = 320, 520, 18
    ticks = powers([it for _, rows in sections for _, bars in rows for bar in bars for it in bar[1:]])
    at, parts, y = scale(ticks[0], ticks[-1], left, width), [], 62
    for heading, rows in sections:
        parts.append(text(8, y, heading, ' font-weight="bold"'))
        y += row
        for label, bars in rows:
            parts.append(text(24, y, label))
            for k, (colour, dot, low, high) in enumerate(bars):
                lift = y - 7 + 7 * k
                parts.append(line(at(low), lift, at(high), lift, COLOURS[colour], ' stroke-width="3" opacity="0.4"'))
                parts.append(f'<circle cx="{at(dot):.1f}" cy="{lift}" r="3" fill="{COLOURS[colour]}"/>')
            y += row
        y += 6
    grid = [text(8, 16, title, ' font-weight="bold" font-size="13"')]
    for tick in ticks:
        grid.append(line(at(tick), 46, at(tick), y - 12, "#000" if tick == 1 else "#ddd"))
        grid.append(text(at(tick), 40, said(tick) if tick >= 1 else f"1/{1 / tick:g}", ' text-anchor="middle"'))
    spans = ", ".join(f'<tspan fill="{COLOURS[colour]}">{words}</tspan>' for colour, words in key)
    foot = text(8, y + 6, spans + ": dots are medians, bars go over all rounds; left of 1 is faster than the twin")
    return framed(left + width + 24, y + 20, grid + parts + [foot], title, "For each row the time of ours divided by that of "
                  "a twin, on a logarithmic scale: " + ", ".join(words for _, words in key) + ".")


def ticks_of(low, high):
    """1, 2 and 5 of each power of ten between two numbers."""
    power, found = 10 ** math.floor(math.log10(low)), []
    while power <= high:
        found += [step * power for step in (1, 2, 5) if low <= step * power <= high]
        power *= 10
    return found


def curves(panels, about):
    """Panels side by side, each (title, what x is, [(x, its label)], [(name, colour, dash, [(x, ns)])]); ns go up on a
    logarithmic scale, and so does x."""
    width, height, parts = 450, 310, []
    for k, (title, below, ticks, series) in enumerate(panels):
        left, right, top, bottom = k * width + 56, (k + 1) * width - 132, 46, height - 44
        values = [ns for *_, points in series for _, ns in points]
        ticks_below, ticks_above = ticks_of(min(values) / 10, min(values)), ticks_of(max(values), max(values) * 10)
        low, high = ticks_below[-1], ticks_above[0]
        up = scale(low, high, 0, bottom - top)
        across = scale(ticks[0][0], ticks[-1][0], left, right - left)
        for at, words in enumerate(title.split("\n")):
            parts.append(text(left - 48, 16 + 15 * at, words, ' font-weight="bold"' if at == 0 else ""))
        for tick in ticks_of(low, high):
            parts.append(line(left, bottom - up(tick), right, bottom - up(tick), "#ddd"))
            parts.append(text(left - 6, bottom - up(tick) + 4, said(tick), ' text-anchor="end"'))
        for x, label in ticks:
            parts.append(line(across(x), bottom, across(x), bottom + 4, "#000"))
            parts.append(text(across(x), bottom + 16, label, ' text-anchor="middle"'))
        parts.append(text((left + right) / 2, bottom + 34, below, ' text-anchor="middle"'))
        parts += panel_lines(series, across, lambda ns: bottom - up(ns), right)
    return framed(width * len(panels), height, parts, panels[0][0].split("\n")[0], about)


def panel_lines(series, across, up, right):
    """The lines of one panel, each with its name at its end, apart from the others."""
    ends, parts = [], []
    for name, colour, dash, points in sorted(series, key=lambda it: -it[3][-1][1]):
        path = " ".join(f"{across(x):.1f},{up(ns):.1f}" for x, ns in points)
        parts.append(f'<polyline points="{path}" fill="none" stroke="{COLOURS[colour]}" stroke-width="2"{dash}/>')
        parts += [f'<circle cx="{across(x):.1f}" cy="{up(ns):.1f}" r="2.5" fill="{COLOURS[colour]}"/>'
                  for x, ns in points]
        y = max([up(points[-1][1]) + 4] + [it + 13 for it in ends[-1:]])
        ends.append(y)
        parts.append(text(right + 8, y, name, f' fill="{COLOURS[colour]}"'))
    return parts
