"""Bars in SVG, each with its label and its number."""
import collections
from html import escape

Bar = collections.namedtuple("Bar", "label ratio aim")

LABELS, BARS, NUMBERS = 400, 420, 60
TOP, STEP, THICK = 48, 22, 14
OVER_LINES = 'stroke="#fff" stroke-width="4" paint-order="stroke"'
REACHED, MISSED, PLAIN = "#2e7d32", "#c62828", "#4878a8"


def colour(bar):
    """A bar with an aim shows whether it is reached."""
    if bar.aim is None:
        return PLAIN
    return REACHED if bar.ratio <= bar.aim else MISSED


def drawn_bar(bar, place, scale):
    """A bar, its label before it, and its number behind it and its aim, which is a stroke."""
    y = TOP + STEP * place
    end = LABELS + max(bar.ratio, bar.aim or 0) * scale
    lines = [
        f'<text x="{LABELS - 8}" y="{y + 11}" text-anchor="end">{escape(bar.label)}</text>',
        f'<rect x="{LABELS}" y="{y}" width="{bar.ratio * scale:.1f}" height="{THICK}" fill="{colour(bar)}"/>',
        f'<text x="{end + 6:.1f}" y="{y + 11}" {OVER_LINES}>{bar.ratio:.2f}</text>',
    ]
    if bar.aim is not None:
        x = LABELS + bar.aim * scale
        lines.append(f'<path d="M{x:.1f} {y - 3}v{THICK + 6}" stroke="#000" stroke-width="2"/>')
    return lines


def drawn(title, bars):
    """The drawing of all bars from 0 on, with a line at 1."""
    scale = BARS / max(max(bar.ratio, bar.aim or 0) for bar in bars)
    width, height = LABELS + BARS + NUMBERS, TOP + STEP * len(bars) + 12
    one = LABELS + scale
    lines = [
        f'<svg xmlns="http://www.w3.org/2000/svg" viewBox="0 0 {width} {height}" font-family="sans-serif" font-size="12">',
        f"<title>{escape(title)}</title>",
        f'<rect width="{width}" height="{height}" fill="#fff"/>',
        f'<text x="{LABELS}" y="22" font-size="15">{escape(title)}</text>',
        f'<path d="M{one:.1f} {TOP - 8}V{height - 8}" stroke="#888" stroke-dasharray="4 3"/>',
        f'<text x="{one:.1f}" y="{TOP - 12}" text-anchor="middle" fill="#555">1</text>',
    ]
    for place, bar in enumerate(bars):
        lines += drawn_bar(bar, place, scale)
    return "\n".join([*lines, "</svg>", ""])
