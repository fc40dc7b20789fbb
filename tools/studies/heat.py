"""A picture of two varied values: a field for each point, the darker the greater."""
from collections.abc import Sequence
from html import escape

from .points import NOTHING
from .table import Field
from .values import Axis

CELL_WIDTH, CELL_HEIGHT, LEFT, TOP, MARGIN = 80, 30, 160, 90, 20
LIGHT, DARK = (247, 251, 255), (8, 48, 107)
HATCH = ('<pattern id="none" width="6" height="6" patternUnits="userSpaceOnUse">'
         '<path d="M0 6L6 0" stroke="#999"/></pattern>')


def picture(measure: str, down: Axis, across: Axis, fields: Sequence[Field]) -> str:
    """The picture as SVG; the fields are in order, line by line."""
    numbers = [field.number for field in fields if field.number is not None]
    low, high = min(numbers, default=0), max(numbers, default=0)
    width = LEFT + CELL_WIDTH * len(across.values) + MARGIN
    height = TOP + CELL_HEIGHT * len(down.values) + MARGIN + 20
    parts = [
        f'<svg xmlns="http://www.w3.org/2000/svg" width="{width}" height="{height}" viewBox="0 0 {width} {height}" '
        'font-family="sans-serif" font-size="12">',
        f"<defs>{HATCH}</defs>", f'<rect width="{width}" height="{height}" fill="#fff"/>',
        words(MARGIN, 24, f"{measure}: {low} to {high}", "start", 'font-size="15"'),
        words(LEFT, 50, across.key, "start"), words(LEFT - 10, TOP - 8, down.key, "end"),
    ]
    parts += [words(LEFT + CELL_WIDTH * at + CELL_WIDTH // 2, TOP - 8, value, "middle")
              for at, value in enumerate(across.values)]
    parts += [words(LEFT - 10, TOP + CELL_HEIGHT * at + 20, value, "end") for at, value in enumerate(down.values)]
    for at, field in enumerate(fields):
        row, column = divmod(at, len(across.values))
        title = f"{down.key} {down.values[row]}, {across.key} {across.values[column]}"
        parts += drawn(field, LEFT + CELL_WIDTH * column, TOP + CELL_HEIGHT * row, title, (low, high))
    parts.append(words(MARGIN, height - 14, legend(fields), "start"))
    return "\n".join([*parts, "</svg>", ""])


def legend(fields: Sequence[Field]) -> str:
    """What the signs say."""
    signs = ["hatched: no value"]
    if any(field.is_met is not None for field in fields):
        signs.append("✓: meets what is required")
    return " · ".join(signs)


def drawn(field: Field, left: int, top: int, title: str, bounds: tuple[int, int]) -> list[str]:
    """One field, with its words for the mouse."""
    number = field.number
    fill = "url(#none)" if number is None else colour(number, *bounds)
    text = field.state.partition(" ")[0] if field.value == NOTHING else field.value
    sign = " ✓" if field.is_met else ""
    ink = "#fff" if number is not None and is_dark(number, *bounds) else "#000"
    return [
        f'<g><title>{escape(title)}: {escape(field.value)} {escape(field.state)}</title>'
        f'<rect x="{left}" y="{top}" width="{CELL_WIDTH - 2}" height="{CELL_HEIGHT - 2}" fill="{fill}" stroke="#ccc"/>',
        words(left + CELL_WIDTH // 2, top + 19, text + sign, "middle", f'fill="{ink}"') + "</g>",
    ]


def colour(number: int, low: int, high: int) -> str:
    """From light to dark, in whole steps."""
    parts = (light + (dark - light) * (number - low) // max(1, high - low) for light, dark in zip(LIGHT, DARK))
    return "#" + "".join(f"{part:02x}" for part in parts)


def is_dark(number: int, low: int, high: int) -> bool:
    return 2 * (number - low) > high - low


def words(x: int, y: int, text: str, anchor: str, more: str = "") -> str:
    return f'<text x="{x}" y="{y}" text-anchor="{anchor}" {more}>{escape(text)}</text>'
