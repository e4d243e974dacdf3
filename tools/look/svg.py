"""A drawing in SVG, of the few shapes that a picture of a run needs."""
from collections.abc import Iterator
from contextlib import contextmanager
from xml.sax.saxutils import escape, quoteattr

FONT = "'DejaVu Sans Mono', Menlo, Consolas, 'Liberation Mono', monospace"
GLYPH = 0.6025
"""How wide a character of these fonts is, in sizes of the font."""


def fitted(text: str, width: float, size: float) -> str:
    """The text, or what of it fits into a width, with an ellipsis behind."""
    room = int(width / (GLYPH * size))
    return text if len(text) <= room else text[:max(0, room - 1)] + '…'


class Drawing:
    """Shapes one above another; colours are those of SVG."""

    def __init__(self) -> None:
        self.parts: list[str] = []

    @contextmanager
    def titled(self, title: str) -> Iterator[None]:
        """What is drawn meanwhile shows this title under the pointer."""
        self.parts.append(f'<g><title>{escape(title)}</title>')
        yield
        self.parts.append('</g>')

    def box(self, x: float, y: float, width: float, height: float, fill: str, stroke: str = 'none',
            round_by: float = 3, dash: str = '') -> None:
        """A rectangle."""
        dashed = f' stroke-dasharray="{dash}"' if dash else ''
        self.parts.append(f'<rect x="{x:g}" y="{y:g}" width="{width:g}" height="{height:g}" '
                          f'rx="{round_by:g}" fill="{fill}" stroke="{stroke}"{dashed}/>')

    def line(self, x: float, y: float, to_x: float, to_y: float, stroke: str, width: float = 1,
             dash: str = '') -> None:
        """A straight line."""
        dashed = f' stroke-dasharray="{dash}"' if dash else ''
        self.parts.append(f'<line x1="{x:g}" y1="{y:g}" x2="{to_x:g}" y2="{to_y:g}" '
                          f'stroke="{stroke}" stroke-width="{width:g}"{dashed}/>')

    def text(self, x: float, y: float, text: str, size: float = 11, fill: str = '#222',
             bold: bool = False, anchor: str = 'start') -> None:
        """A line of text above y."""
        weight = ' font-weight="bold"' if bold else ''
        self.parts.append(f'<text x="{x:g}" y="{y:g}" font-size="{size:g}" fill="{fill}"{weight} '
                          f'text-anchor="{anchor}" xml:space="preserve">{escape(text)}</text>')

    def polygon(self, points: list[tuple[float, float]], fill: str) -> None:
        """A filled shape."""
        told = ' '.join(f'{x:g},{y:g}' for x, y in points)
        self.parts.append(f'<polygon points="{told}" fill="{fill}"/>')

    def document(self, width: float, height: float, title: str) -> str:
        """All of it on white."""
        return (f'<svg xmlns="http://www.w3.org/2000/svg" width="{width:g}" height="{height:g}" '
                f'viewBox="0 0 {width:g} {height:g}" font-family={quoteattr(FONT)}>\n'
                f'<title>{escape(title)}</title>\n'
                f'<rect width="100%" height="100%" fill="#fff"/>\n'
                + '\n'.join(self.parts) + '\n</svg>\n')
