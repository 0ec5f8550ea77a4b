"""A picture of what programs cost against a number, as SVG: panels side by side, both axes logarithmic."""
import math

WIDTH, HEIGHT, LEFT, TOP, BETWEEN = 230, 200, 60, 40, 100
COLOURS = {'dvicopy': '#767676', 'dviflat': '#1f5fbf'}


def text(x, y, words, **style):
    given = ''.join(f' {name.replace("_", "-")}="{value}"' for name, value in style.items())
    return f'<text x="{x:.1f}" y="{y:.1f}"{given}>{words}</text>'


def powers(low, high):
    """The powers of ten around these numbers."""
    return [10.0 ** k for k in range(math.floor(math.log10(low)), math.ceil(math.log10(high)) + 1)]


def short(number):
    return f'{number:,.0f}' if number >= 1 else f'{number:g}'


def panel(title, unit, rows, left):
    """One panel: `rows` has a number, and for each program what it cost there."""
    xs = [max(row[0], 0.5) for row in rows]
    ticks = powers(min(min(row[1].values()) for row in rows), max(max(row[1].values()) for row in rows))
    low, high = math.log(min(xs)), math.log(max(xs))
    bottom, top = math.log(ticks[0]), math.log(ticks[-1])

    def x(value):
        return left + (math.log(max(value, 0.5)) - low) / (high - low) * WIDTH

    def y(value):
        return TOP + HEIGHT - (math.log(value) - bottom) / (top - bottom) * HEIGHT

    out = [text(left, TOP - 16, title, font_weight='bold')]
    for tick in ticks:
        out.append(f'<path d="M{left} {y(tick):.1f}h{WIDTH}" stroke="#dddddd"/>')
        out.append(text(left - 6, y(tick) + 4, short(tick), text_anchor='end'))
    for value, _ in rows:
        out.append(text(x(value), TOP + HEIGHT + 16, short(value) if value else '0', text_anchor='middle'))
    out.append(text(left + WIDTH / 2, TOP + HEIGHT + 34, unit, text_anchor='middle'))
    for name, colour in COLOURS.items():
        points = ' '.join(f'{x(value):.1f},{y(costs[name]):.1f}' for value, costs in rows)
        out.append(f'<polyline points="{points}" fill="none" stroke="{colour}" stroke-width="2"/>')
        value, costs = rows[-1]
        out.append(text(x(value) + 4, y(costs[name]) + 4, name, fill=colour))
    return out


def picture(panels):
    """`panels` has for each its title, the unit of its numbers, and its rows."""
    width = LEFT + len(panels) * (WIDTH + BETWEEN)
    height = TOP + HEIGHT + 50
    out = [f'<svg xmlns="http://www.w3.org/2000/svg" width="{width}" height="{height}" font-family="sans-serif" font-size="11">',
           f'<rect width="{width}" height="{height}" fill="white"/>']
    for k, (title, unit, rows) in enumerate(panels):
        out += panel(title, unit, rows, LEFT + k * (WIDTH + BETWEEN))
    return '\n'.join(out + ['</svg>', ''])
