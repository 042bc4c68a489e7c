"""Elements of a picture as an SVG, on a white ground: what draw and chart share."""

import html
from typing import Any

SANS = "system-ui,-apple-system,'Segoe UI',Roboto,'DejaVu Sans',sans-serif"
INK, FAINT, RULE = "#1f2630", "#7b8491", "#e6e9ee"
# Of threads, or of the lines of a chart.
COLOURS = ("#3b6fb6", "#c2572b", "#2f8f5b", "#8a4fb0", "#b0882a", "#2b8c9e", "#b5446e", "#6b7280", "#5a7d2a", "#7a5230")


Attributes = dict[str, Any]

# What XML does not allow in a text: controls, for which their pictures stand, and what is no character.
NOT_ALLOWED = {code: 0x2400 + code for code in range(32) if code not in (9, 10, 13)}
NOT_ALLOWED |= dict.fromkeys([*range(0xD800, 0xE000), 0xFFFE, 0xFFFF], 0xFFFD)


def escape(text: str) -> str:
    """A text as XML and HTML have it, between tags or as the value of an attribute."""
    return html.escape(text.translate(NOT_ALLOWED), quote=True)


def attributes(values: Attributes) -> str:
    return "".join(f' {name.replace("_", "-")}="{escape(str(value))}"' for name, value in values.items())


def number(value: float) -> str:
    return f"{value:.1f}".rstrip("0").rstrip(".")


def rect(x: float, y: float, width: float, height: float, title: str = "", **values: Any) -> str:
    size = f'width="{number(max(width, 0.5))}" height="{number(height)}"'
    front = f'<rect x="{number(x)}" y="{number(y)}" {size}{attributes(values)}'
    return f"{front}><title>{escape(title)}</title></rect>" if title else front + "/>"


def words(x: float, y: float, text: str, title: str = "", **values: Any) -> str:
    inner = f"<title>{escape(title)}</title>" if title else ""
    return f'<text x="{number(x)}" y="{number(y)}"{attributes(values)}>{inner}{escape(text)}</text>'


def path(points: str, title: str = "", **values: Any) -> str:
    front = f'<path d="{points}"{attributes(values)}'
    return f"{front}><title>{escape(title)}</title></path>" if title else front + "/>"


def circle(x: float, y: float, radius: float, title: str = "", **values: Any) -> str:
    front = f'<circle cx="{number(x)}" cy="{number(y)}" r="{radius}"{attributes(values)}'
    return f"{front}><title>{escape(title)}</title></circle>" if title else front + "/>"


def svg_front(width: float, height: float, label: str) -> str:
    return (
        f'<svg xmlns="http://www.w3.org/2000/svg" viewBox="0 0 {number(width)} {number(height)}" width="{number(width)}" '
        f'height="{number(height)}" role="img" aria-label="{escape(label)}" font-family="{SANS}" font-size="12" fill="{INK}">'
    )


def picture_of(width: float, height: float, label: str, elements: list[str]) -> str:
    """An SVG with a white ground."""
    return (
        "\n".join([svg_front(width, height, label), rect(0, 0, width, height, fill="#fff"), *elements, "</svg>"]) + "\n"
    )
