#!/usr/bin/env python3
"""Draws panels of lines as SVG, with the standard library alone; scripts/growth.py uses it.

A panel has a title, an x and a y scale with their ticks and units, and a line for each series. One
legend stands above all panels. A picture paints its own background. It follows the reader's light
or dark mode where the viewer tells it, and is light elsewhere.
"""
import math
from xml.sax.saxutils import escape

# The size of one panel, and the room around its axes.
ROOM_LEFT, ROOM_RIGHT, ROOM_TOP, ROOM_BOTTOM = 76, 14, 34, 46
HEAD = 64
# Each series has a colour and a shape, so that it can be told apart without the colour.
LIGHT = ('#0550ae', '#bc4c00', '#1a7f37', '#8250df')
DARK = ('#79c0ff', '#ffa657', '#7ee787', '#d2a8ff')
SHAPES = ('M-4 0a4 4 0 1 0 8 0a4 4 0 1 0-8 0', 'M-3.5-3.5h7v7h-7z', 'M0-4.8l4.6 8.2h-9.2z', 'M0-5l5 5l-5 5l-5-5z')


def style(back, text, faint, colours):
    lines = [f'.back{{fill:{back}}}', f'text{{fill:{text};font:12px sans-serif}}', '.title{font-weight:bold;font-size:13px}',
             '.head{font-weight:bold;font-size:16px}', f'.axis{{stroke:{text};fill:none}}', f'.grid{{stroke:{faint};fill:none}}']
    for at, colour in enumerate(colours):
        lines += [f'.line{at}{{stroke:{colour};fill:none;stroke-width:2}}', f'.mark{at}{{fill:{colour}}}']
    return ''.join(lines)


STYLE = (style('#ffffff', '#1f2328', '#d1d9e0', LIGHT)
         + '@media (prefers-color-scheme:dark){' + style('#0d1117', '#e6edf3', '#3d444d', DARK) + '}')


class Scale:
    """Where a value stands between two ends, and the ticks that are shown: linear, or by powers of
    ten."""

    def __init__(self, label, ticks, shown, low=None, high=None, log=False):
        self.label, self.ticks, self.shown, self.log = label, ticks, shown, log
        self.low = self.place(ticks[0] if low is None else low)
        self.high = self.place(ticks[-1] if high is None else high)

    def place(self, value):
        return math.log10(value) if self.log else value

    def share(self, value):
        return (self.place(value) - self.low) / (self.high - self.low)


def thousands(value):
    """A number as a tick shows it."""
    for size, letter in ((1e6, 'M'), (1e3, 'k')):
        if value >= size:
            return f'{value / size:g}{letter}'
    return f'{value:g}'


def from_zero(label, most):
    """A linear scale from 0 that holds the most, with three to six ticks."""
    power = 10 ** math.floor(math.log10(most))
    step = next(step for step in (power / 5, power / 2, power, 2 * power) if most / step <= 5)
    return Scale(label, [step * at for at in range(math.ceil(most / step) + 1)], thousands)


def powers(label, least, most, shown):
    """A scale by powers of ten that holds both."""
    low, high = math.floor(math.log10(least)), math.ceil(math.log10(most))
    return Scale(label, [10.0 ** power for power in range(low, high + 1)], shown, log=True)


def text(x, y, words, anchor='middle', kind=None, turned=False):
    kind = f' class="{kind}"' if kind else ''
    turn = f' transform="rotate(-90 {x:.1f} {y:.1f})"' if turned else ''
    return f'<text x="{x:.1f}" y="{y:.1f}" text-anchor="{anchor}"{kind}{turn}>{escape(words)}</text>'


def mark(x, y, at):
    return f'<path class="mark{at}" transform="translate({x:.1f} {y:.1f})" d="{SHAPES[at]}"/>'


class Panel:
    """`series` has for each name the points of its line."""

    def __init__(self, title, x, y, series):
        self.title, self.x, self.y, self.series = title, x, y, series

    def drawn(self, names, left, top, width, height):
        x0, x1, y0, y1 = left + ROOM_LEFT, left + width - ROOM_RIGHT, top + height - ROOM_BOTTOM, top + ROOM_TOP

        def across(value):
            return x0 + (x1 - x0) * self.x.share(value)

        def up(value):
            return y0 + (y1 - y0) * self.y.share(value)
        out = [text((x0 + x1) / 2, top + 22, self.title, kind='title')]
        for tick in self.y.ticks:
            out += [f'<path class="grid" d="M{x0:.1f} {up(tick):.1f}H{x1:.1f}"/>', text(x0 - 7, up(tick) + 4, self.y.shown(tick), 'end')]
        for tick in self.x.ticks:
            out += [f'<path class="axis" d="M{across(tick):.1f} {y0:.1f}v4"/>', text(across(tick), y0 + 17, self.x.shown(tick))]
        out += [f'<path class="axis" d="M{x0:.1f} {y1:.1f}V{y0:.1f}H{x1:.1f}"/>', text((x0 + x1) / 2, y0 + 35, self.x.label),
                text(left + 16, (y0 + y1) / 2, self.y.label, turned=True)]
        for name, points in self.series.items():
            at = names.index(name)
            places = [(across(x), up(y)) for x, y in points]
            out.append(f'<path class="line{at}" d="M' + 'L'.join(f'{x:.1f} {y:.1f}' for x, y in places) + '"/>')
            out += [mark(x, y, at) for x, y in places]
        return out


def legend(names, left, top):
    out = []
    for at, name in enumerate(names):
        out += [f'<path class="line{at}" d="M{left} {top}h28"/>', mark(left + 14, top, at), text(left + 35, top + 4, name, 'start')]
        left += 35 + 7 * len(name) + 26
    return out


def picture(head, names, panels, columns, width=250, height=200):
    """The SVG of the panels, so many in a row."""
    rows = -(-len(panels) // columns)
    all_width, all_height = columns * width + 10, HEAD + rows * height + 6
    out = [f'<svg xmlns="http://www.w3.org/2000/svg" viewBox="0 0 {all_width} {all_height}" width="{all_width}" height="{all_height}" role="img">',
           f'<title>{escape(head)}</title>', f'<style>{STYLE}</style>', f'<rect class="back" width="{all_width}" height="{all_height}"/>',
           text(16, 26, head, 'start', 'head')]
    out += legend(names, 16, 48)
    for at, panel in enumerate(panels):
        out += panel.drawn(names, at % columns * width, HEAD + at // columns * height, width, height)
    return '\n'.join(out + ['</svg>', ''])
