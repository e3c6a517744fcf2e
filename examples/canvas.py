"""Writes SVG, for the tools of this folder and the pictures of docs/pictures."""
from xml.sax.saxutils import escape, quoteattr

BASE = """
text { font-family: "DejaVu Sans", Verdana, sans-serif }
.mid { text-anchor: middle }
.end { text-anchor: end }
""".strip()


def number(value):
    """A coordinate, always written in the same way."""
    return f'{value:.1f}'.rstrip('0').rstrip('.')


class Canvas:
    """The elements of a picture, in the order in which they are drawn.

    A keyword with an underscore at its end, or inside, is the attribute of SVG with a dash, or without it.
    """

    def __init__(self, style, tips, definitions=''):
        """The picture's own style, the tints of its arrow heads by name (`url(#tip-NAME)`), and further definitions."""
        self.style = style
        self.tips = tips
        self.definitions = definitions
        self.parts = []

    def add(self, name, about=None, text=None, **attributes):
        given = ''.join(
            f' {key.rstrip("_").replace("_", "-")}={quoteattr(number(value) if isinstance(value, (int, float)) else value)}'
            for key, value in attributes.items())
        inner = (f'<title>{escape(about)}</title>' if about else '') + (escape(text) if text else '')
        self.parts.append(f'<{name}{given}>{inner}</{name}>' if inner else f'<{name}{given}/>')

    def line(self, x1, y1, x2, y2, class_, about=None, **more):
        self.add('line', about, x1=x1, y1=y1, x2=x2, y2=y2, class_=class_, **more)

    def box(self, x, y, width, height, class_, about=None, **more):
        self.add('rect', about, x=x, y=y, width=width, height=height, class_=class_, **more)

    def text(self, x, y, text, class_='', **more):
        self.add('text', None, text, x=x, y=y, **({'class_': class_} if class_ else {}), **more)

    def svg(self, width, height):
        tips = ''.join(
            f'<marker id="tip-{name}" viewBox="0 0 6 6" refX="5.5" refY="3" markerWidth="6" markerHeight="6" '
            f'markerUnits="userSpaceOnUse" orient="auto"><path d="M0 0L6 3L0 6z" fill="{tint}"/></marker>'
            for name, tint in self.tips.items())
        return '\n'.join([
            f'<svg xmlns="http://www.w3.org/2000/svg" width="{number(width)}" height="{number(height)}" '
            f'viewBox="0 0 {number(width)} {number(height)}">',
            f'<style>\n{BASE}\n{self.style}\n</style>', f'<defs>{tips}{self.definitions}</defs>',
            f'<rect width="{number(width)}" height="{number(height)}" fill="#ffffff"/>', *self.parts, '</svg>', ''])
