"""Pictures with axes, as SVG text: rows of bars, or lines."""
import math
from html import escape

# Told apart also by those who see few colours (after Okabe and Ito), with grey and black.
COLOURS = ("#009e73", "#d55e00", "#cc79a7", "#56b4e9", "#f0e442", "#999999", "#e69f00", "#0072b2", "#000000")
DASHES = ("none", "8 3", "2 3", "8 3 2 3")
LEFT, RIGHT, TOP, BOTTOM = 190, 30, 84, 56
WIDTH, HEIGHT, ROW = 860, 420, 26
FONT = 'font-family="DejaVu Sans, Arial, sans-serif" font-size="13"'


class Axis:
    """What an axis shows, from where to where, and the round numbers at which it has marks."""

    def __init__(self, name, low, high):
        span = max(high - low, 1e-9)
        power = 10 ** math.floor(math.log10(span / 8))
        self.step = next(power * factor for factor in (1, 2, 5, 10) if power * factor * 8 >= span)
        self.name, self.low, self.high = name, low, low + math.ceil(span / self.step - 1e-9) * self.step

    def marks(self):
        count = round((self.high - self.low) / self.step)
        return [self.low + number * self.step for number in range(count + 1)]

    def place(self, value, begin, end):
        return begin + (value - self.low) / (self.high - self.low) * (end - begin)


def told(number):
    return f"{number:,.10g}"


class Picture:
    """A picture over an axis, with an upward axis for lines, or with labels for rows of bars."""

    def __init__(self, title, across, upward=None, labels=()):
        self.across, self.upward = across, upward
        self.bottom = TOP + (ROW * len(labels) if labels else HEIGHT - TOP - BOTTOM)
        self.parts = [f'<text x="{LEFT}" y="26" font-size="17" font-weight="bold">{escape(title)}</text>']
        self.draw_across()
        for place, label in enumerate(labels):
            self.write(LEFT - 8, TOP + ROW * (place + 0.5) + 4, label, "end")
        if upward:
            self.draw_upward()

    def write(self, x, y, text, anchor, more=""):
        self.parts.append(f'<text x="{x:.1f}" y="{y:.1f}" text-anchor="{anchor}"{more}>{escape(text)}</text>')

    def rule(self, x1, y1, x2, y2, colour):
        self.parts.append(f'<path d="M{x1:.1f} {y1:.1f}L{x2:.1f} {y2:.1f}" stroke="{colour}"/>')

    def x(self, value):
        return self.across.place(value, LEFT, WIDTH - RIGHT)

    def y(self, value):
        return self.upward.place(value, self.bottom, TOP)

    def draw_across(self):
        for mark in self.across.marks():
            self.rule(self.x(mark), TOP, self.x(mark), self.bottom, "#dddddd")
            self.write(self.x(mark), self.bottom + 18, told(mark), "middle")
        self.rule(LEFT, self.bottom, WIDTH - RIGHT, self.bottom, "black")
        self.rule(LEFT, TOP, LEFT, self.bottom, "black")
        self.write((LEFT + WIDTH - RIGHT) / 2, self.bottom + 42, self.across.name, "middle")

    def draw_upward(self):
        for mark in self.upward.marks():
            self.rule(LEFT, self.y(mark), WIDTH - RIGHT, self.y(mark), "#dddddd")
            self.write(LEFT - 8, self.y(mark) + 4, told(mark), "end")
        middle = (TOP + self.bottom) / 2
        self.write(LEFT - 72, middle, self.upward.name, "middle", f' transform="rotate(-90 {LEFT - 72} {middle:.1f})"')

    def legend(self, items):
        """Names with their colours, in lines under the title."""
        x, y = LEFT, 46
        for name, colour in items:
            width = 30 + 8 * len(name)
            if x > LEFT and x + width > WIDTH - 10:
                x, y = LEFT, y + 20
            self.parts.append(f'<path d="M{x} {y - 10}h12v12h-12z" fill="{colour}" stroke="black"/>')
            self.write(x + 18, y + 1, name, "start")
            x += width

    def bar(self, row, first, last, colour):
        """At least a pixel wide, so that a single one of many frames shows."""
        left, right, top = self.x(first), self.x(last), TOP + ROW * row + 5
        width = max(right - left, 1)
        self.parts.append(f'<path d="M{left:.1f} {top}h{width:.1f}v{ROW - 10}h-{width:.1f}z" fill="{colour}"/>')

    def line(self, points, colour, number):
        places = [f"{self.x(x):.1f} {self.y(y):.1f}" for x, y in points]
        if places:
            dash = DASHES[number % len(DASHES)]
            stroke = f'fill="none" stroke="{colour}" stroke-width="2" stroke-dasharray="{dash}"'
            self.parts.append(f'<path d="M{"L".join(places)}" {stroke}/>')
        for x, y in points:
            self.parts.append(f'<circle cx="{self.x(x):.1f}" cy="{self.y(y):.1f}" r="4" fill="{colour}"/>')

    def text(self):
        size = f'width="{WIDTH}" height="{self.bottom + BOTTOM:.0f}"'
        body = "\n".join(self.parts)
        head = f'<svg xmlns="http://www.w3.org/2000/svg" {size} {FONT}>'
        return f'{head}\n<path d="M0 0H{WIDTH}V{self.bottom + BOTTOM:.0f}H0z" fill="white"/>\n{body}\n</svg>\n'
