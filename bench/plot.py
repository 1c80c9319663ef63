"""The pictures of docs/PERFORMANCE.md, as SVG: bars on a white ground, so that they can be read on a dark page too."""
from html import escape

WIDTH, LABELS, LONGEST, BAR = 720, 240, 400, 18
OURS, ALSO_OURS, THEIRS = "#1b6ca8", "#7fb2d8", "#9aa5ad"


def bars(title, groups, legend=()):
    """Groups of bars, each a name, a cell of a table, and a color. A cell `-` has no bar. The legend names colors."""
    most = max((float(cell.replace(",", "")) for group in groups for _, cell, _ in group if cell != "-"), default=1)
    y, parts = 40, []
    for at, (name, color) in enumerate(legend):
        parts.append(f'<rect x="{WIDTH - 130}" y="{14 + 20 * at}" width="12" height="12" fill="{color}"/>')
        parts.append(f'<text x="{WIDTH - 112}" y="{24 + 20 * at}">{escape(name)}</text>')
    for group in groups:
        for name, cell, color in group:
            if cell != "-":
                wide = max(LONGEST * float(cell.replace(",", "")) / most, 1)
                parts.append(f'<text x="{LABELS - 8}" y="{y + 13}" text-anchor="end">{escape(name)}</text>')
                parts.append(f'<rect x="{LABELS}" y="{y}" width="{wide:.1f}" height="{BAR - 2}" fill="{color}"/>')
                parts.append(f'<text x="{LABELS + wide + 6:.1f}" y="{y + 13}">{escape(cell)}</text>')
                y += BAR
        y += 8
    head = [
        f'<svg xmlns="http://www.w3.org/2000/svg" viewBox="0 0 {WIDTH} {y + 4}" width="{WIDTH}" height="{y + 4}" role="img" '
        'font-family="DejaVu Sans, Verdana, sans-serif" font-size="12">',
        f"<title>{escape(title)}</title>",
        f'<rect width="{WIDTH}" height="{y + 4}" rx="6" fill="white"/>',
        f'<text x="16" y="24" font-size="13" font-weight="bold">{escape(title)}</text>',
    ]
    return "\n".join([*head, *parts]) + "\n</svg>\n"
