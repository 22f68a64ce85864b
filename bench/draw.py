"""The ratios to the naive sum as an SVG picture: a panel for each n, conditions across, ratios up on a logarithmic scale."""
import math

PANEL = (430, 330)  # width and height of a panel with its margins
LEFT, RIGHT, TOP, BOTTOM = 48, 12, 34, 62
LEGEND = 84
COLOURS = ("#1b6ca8", "#7fb2d9", "#555555", "#c0392b", "#e59a8f", "#2e8b57", "#b8860b", "#8e44ad")
DASHES = {"#7fb2d9": "5 3", "#e59a8f": "5 3"}
FONT = 'font-family="sans-serif" font-size="11"'


def text(x, y, words, anchor="middle", more=""):
    words = words.replace("&", "&amp;").replace("<", "&lt;")
    return f'<text x="{x:.1f}" y="{y:.1f}" text-anchor="{anchor}" {FONT} fill="#222222"{more}>{words}</text>'


def line(x1, y1, x2, y2, colour="#dddddd"):
    return f'<line x1="{x1:.1f}" y1="{y1:.1f}" x2="{x2:.1f}" y2="{y2:.1f}" stroke="{colour}"/>'


def ticks(top):
    """1, 2, 5, 10, 20, .. up to the top."""
    return [d * 10**k for k in range(4) for d in (1, 2, 5) if d * 10**k <= top]


def curve(points, colour):
    dash = f' stroke-dasharray="{DASHES[colour]}"' if colour in DASHES else ""
    path = " ".join(f"{x:.1f},{y:.1f}" for x, y in points)
    dots = "".join(f'<circle cx="{x:.1f}" cy="{y:.1f}" r="2.5" fill="{colour}"/>' for x, y in points)
    return f'<polyline points="{path}" fill="none" stroke="{colour}" stroke-width="1.8"{dash}/>{dots}'


def panel(x0, y0, n, conditions, ratios, top):
    """`ratios`: for each name its ratio at each condition."""
    wide, high = PANEL[0] - LEFT - RIGHT, PANEL[1] - TOP - BOTTOM
    across = [x0 + LEFT + wide * (k + 0.5) / len(conditions) for k in range(len(conditions))]

    def up(ratio):
        return y0 + TOP + high * (1 - math.log(ratio / 0.8) / math.log(top / 0.8))

    yield text(x0 + LEFT + wide / 2, y0 + 20, f"n = {n:,}", more=' font-weight="bold"')
    for tick in ticks(top):
        yield line(x0 + LEFT, up(tick), x0 + LEFT + wide, up(tick), "#888888" if tick == 1 else "#dddddd")
        yield text(x0 + LEFT - 6, up(tick) + 4, f"{tick:,}", "end")
    for x, condition in zip(across, conditions):
        for row, words in enumerate(condition.split(", ")):
            yield text(x, y0 + TOP + high + 16 + 13 * row, words)
    yield text(x0 + LEFT + wide / 2, y0 + TOP + high + 48, "condition of the list")
    for colour, values in zip(COLOURS, ratios.values()):
        yield curve([(x, up(v)) for x, v in zip(across, values)], colour)


def picture(title, conditions, panels):
    """`panels`: for each n the ratios of each name at each condition. Two panels stand in a row."""
    names = list(next(iter(panels.values())))
    top = 1.15 * max(max(max(v) for v in ratios.values()) for ratios in panels.values())
    rows = (len(panels) + 1) // 2
    wide, high = 2 * PANEL[0], LEGEND + rows * PANEL[1]
    out = [f'<svg xmlns="http://www.w3.org/2000/svg" viewBox="0 0 {wide} {high}" width="{wide}" height="{high}">']
    out += [f'<rect width="{wide}" height="{high}" fill="#ffffff"/>', text(wide / 2, 20, title, more=' font-weight="bold"')]
    for k, (name, colour) in enumerate(zip(names, COLOURS)):
        x, y = 30 + (k % 4) * 208, 42 + (k // 4) * 20
        out += [curve([(x, y), (x + 24, y)], colour), text(x + 32, y + 4, name, "start")]
    for k, (n, ratios) in enumerate(panels.items()):
        out += panel(k % 2 * PANEL[0], LEGEND + k // 2 * PANEL[1], n, conditions, ratios, top)
    return "\n".join([*out, "</svg>", ""])
