"""A picture as SVG text: shapes with titles, texts, and a legend. All lengths are in pixels."""
from __future__ import annotations

from collections.abc import Callable, Iterable, Mapping, Sequence
from typing import Union
from xml.sax.saxutils import escape, quoteattr

FONT = "DejaVu Sans, Verdana, Arial, sans-serif"
INK = "#1a1a1a"
MARGIN = 16.0
# The value of an attribute.
Value = Union[str, float]
# What draws an entry of a legend, with its upper left corner.
Painter = Callable[["Picture", float, float], None]


def number(value: float) -> str:
    """A number with at most four decimal places."""
    return f"{value:.4f}".rstrip("0").rstrip(".") if value % 1 else str(int(value))


def plural(count: int, word: str) -> str:
    return f"{number(count)} {word}" + ("" if count == 1 else "s")


# Upper estimates of the width of wide sans serif letters, as parts of the size.
WIDTHS = {**dict.fromkeys(" .,:;'!|()[]/ijlftrIJ-", 0.42), **dict.fromkeys("mwMW@%", 1),
          **dict.fromkeys("#+<=>^~&", 0.84)}


def letter_width(letter: str) -> float:
    return WIDTHS.get(letter, 0.79 if letter.isupper() else 0.64)


def text_width(text: str, size: float) -> float:
    """An upper estimate of a text's width."""
    return sum(letter_width(letter) for letter in text) * size


def attribute_name(key: str) -> str:
    """The name of an attribute that is given by a keyword, in which `_` stands for `-`; the last one for nothing."""
    return key.rstrip("_").replace("_", "-")


def attributes(values: Mapping[str, Value]) -> str:
    written = (f"{name}={quoteattr(number(value) if isinstance(value, (int, float)) else value)}"
               for name, value in values.items())
    return " ".join(written)


class Picture:
    """The parts of a picture in the order in which they are drawn."""

    def __init__(self, title: str, description: str) -> None:
        self.title = title
        self.description = description
        self.parts: list[str] = []

    def shape(self, name: str, places: Mapping[str, Value], title: str | None = None, /, **more: Value) -> None:
        """A shape with a title that says what it is. The names of attributes are those of `attribute_name`."""
        values = {attribute_name(key): value for key, value in more.items()}
        words = attributes({**places, **values})
        inner = f"<title>{escape(title)}</title></{name}>" if title else f"</{name}>"
        self.parts.append(f"<{name} {words}>{inner}")

    def box(self, left: float, top: float, width: float, height: float, title: str | None = None, /, **more: Value) -> None:
        places = {"x": round(left, 2), "y": round(top, 2), "width": round(width, 2), "height": round(height, 2)}
        self.shape("rect", places, title, **more)

    def line(self, from_x: float, from_y: float, to_x: float, to_y: float, title: str | None = None, /, **more: Value) -> None:
        places = {"x1": round(from_x, 2), "y1": round(from_y, 2), "x2": round(to_x, 2), "y2": round(to_y, 2)}
        self.shape("line", places, title, **more)

    def polygon(self, corners: Iterable[tuple[float, float]], title: str | None = None, /, **more: Value) -> None:
        points = " ".join(f"{number(round(x, 2))},{number(round(y, 2))}" for x, y in corners)
        self.shape("polygon", {"points": points}, title, **more)

    def text(self, left: float, base: float, words: str, size: float = 11, /, **more: Value) -> None:
        values: dict[str, Value] = {"x": round(left, 2), "y": round(base, 2), "font-size": size}
        values.update({attribute_name(key): value for key, value in more.items()})
        self.parts.append(f"<text {attributes(values)}>{escape(words)}</text>")

    def head(self, lines: Sequence[str], unit: str) -> float:
        """Draws the title, the lines below it and the unit of the axis; returns where the axis is."""
        self.text(MARGIN, 26, self.title, 16, font_weight="bold")
        for place, line in enumerate(lines):
            self.text(MARGIN, 46 + 16 * place, line, 12)
        top = 70 + 16 * len(lines)
        self.text(MARGIN, top - 7, unit, 10)
        return top

    def head_width(self, lines: Sequence[str]) -> float:
        """The width of a picture that its title and the lines below it need."""
        return 2 * MARGIN + max(1.15 * text_width(self.title, 16), *(text_width(line, 12) for line in lines))

    def legend(self, top: float, width: float, entries: Iterable[tuple[str, Painter]]) -> float:
        """Draws a legend in as many rows as it needs; returns where it ends. An entry is a text and a painter."""
        x, y = MARGIN, top
        for words, paint in entries:
            needed = 26 + text_width(words, 11) + 10
            if x > MARGIN and x + needed > width - MARGIN:
                x, y = MARGIN, y + 18
            paint(self, x, y)
            self.text(x + 24, y + 10, words)
            x += needed
        return y + 18

    def svg(self, width: float, height: float) -> str:
        head = (f'<svg xmlns="http://www.w3.org/2000/svg" role="img" width="{number(width)}" height="{number(height)}"'
                f' viewBox="0 0 {number(width)} {number(height)}" font-family="{FONT}" fill="{INK}">')
        front = [head, f"<title>{escape(self.title)}</title>", f"<desc>{escape(self.description)}</desc>",
                 f'<rect width="{number(width)}" height="{number(height)}" fill="#ffffff"/>']
        return "\n".join(front + self.parts + ["</svg>", ""])


def swatch(**style: Value) -> Painter:
    """A painter of a legend's box."""
    return lambda picture, x, y: picture.box(x, y + 1, 18, 10, **style)
