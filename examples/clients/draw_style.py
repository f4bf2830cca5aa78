"""How a picture looks: colours, lines and the legend. All colours are said, the white ground too, so that dark viewers show the same."""

FILLS = {"op": "#d3f5db", "join": "#fff1b8", "branch": "#ffdcea", "value": "#d8ecff", "memory": "#ffdfc8", "read": "#ffeedd", "end": "#e4e8ed",
         "fork": "#424a53"}
KINDS = " ".join(f".{name} {{ fill: {fill} }}" for name, fill in FILLS.items())
STYLE = f"""text {{ font-family: "DejaVu Sans", Verdana, sans-serif; font-size: 12px; text-anchor: middle; fill: #1b1f24 }}
text.small {{ font-size: 9px; fill: #57606a }} text.unit {{ font-size: 9px; fill: #57606a }} text.title {{ font-size: 14px; font-weight: bold }}
text.number {{ font-size: 8px; fill: #57606a; text-anchor: start }} text.name {{ font-size: 11px; font-style: italic; fill: #0a3069 }}
text.count {{ font-size: 9px; font-weight: bold; fill: #ffffff }} text.left {{ text-anchor: start }}
text.block {{ font-size: 10px; font-weight: bold; fill: #57606a; text-anchor: start }}
text.block, text.mark {{ paint-order: stroke; stroke: #f6f8fa; stroke-width: 3px }}
.node {{ stroke: #57606a; stroke-width: 1.2 }} {KINDS}
.memory {{ stroke: #bc4c00; stroke-width: 2.2 }} .read {{ stroke: #bc4c00 }}
.line {{ fill: none; stroke: #424a53; stroke-width: 1.3 }} .control {{ stroke: #8250df; stroke-dasharray: 6 3 }}
.frame {{ fill: #f6f8fa; stroke: #afb8c1; stroke-width: 1 }} .register {{ fill: #0550ae }}"""
HOT = """ .warm { stroke: #e16f24; stroke-width: 2.2 } .hot { stroke: #cf222e; stroke-width: 3.4 }"""
TIP = ('<defs><marker id="tip" viewBox="0 0 8 8" refX="7" refY="4" markerWidth="9" markerHeight="9" markerUnits="userSpaceOnUse" orient="auto">'
       '<path d="M0,0.5 L8,4 L0,7.5 z" fill="#424a53"/></marker></defs>')
FRAME_TITLE = '<text class="block" x="{x:.1f}" y="{y:.1f}">{title}</text>'
SWATCH = '<rect class="node {}" x="{{x}}" y="{{top}}" width="16" height="12" rx="3"/>'
# The legend's lines: of each mark its width, what draws it, and its words.
LEGEND = [
    [(16, SWATCH.format(style), words) for style, words in (
        ("op", "operation"), ("join", "merge, mux"), ("branch", "branch"), ("memory", "queue"), ("read", "read"),
        ("value", "parameter, constant"), ("end", "entry, exit"))],
    [(26, '<path class="line" d="M{x},{y} h26"/>', "values"), (26, '<path class="line control" d="M{x},{y} h26"/>', "control"),
     (16, '<rect class="register" x="{x}" y="{top}" width="16" height="12" rx="2"/><text class="count" x="{mid}" y="{low}">2</text>',
      "register, 2 cycles"),
     (9, '<circle class="fork" cx="{x}" cy="{y}" r="4.5"/>', "fork"),
     (16, '<path class="line" d="M{x},{top} m0,2 h16 m-13,4 h10 m-7,4 h4"/>', "sink"),
     (16, '<rect class="frame" x="{x}" y="{top}" width="16" height="12" rx="2"/>', "block"),
     (9, '<text class="number" x="{x}" y="{low}">12</text>', "number of a unit")],
]


def text_width(text, size):
    """About how wide a text is."""
    return size * sum(0.96 if it in "mwMW" else 0.84 if it in "→<>=+−×÷≠≤" else 0.38 if it in "ijlIrtf.,:;|()[] " else 0.62 for it in text)


def register_width(delay):
    """How wide a register is."""
    return 10 + 6 * len(str(delay))


def channel_line(told, kind, path, has_tip, spot, delay):
    """The line of a channel, and its register at a spot."""
    tip = ' marker-end="url(#tip)"' if has_tip else ""
    text = f'<g><title>{told}</title><path class="line{kind}" d="{path}"{tip}/>'
    if delay:
        wide = register_width(delay)
        text += (f'<rect class="register" x="{spot[0] - wide / 2:.1f}" y="{spot[1] - 6:.1f}" width="{wide}" height="12" rx="2"/>'
                 f'<text class="count" x="{spot[0]:.1f}" y="{spot[1] + 3.5:.1f}">{delay}</text>')
    return text + "</g>"


def legend(middle, y):
    """What the colours, the lines and the marks mean, in two lines below the title."""
    for line in LEGEND:
        widths = [wide + 6 + text_width(words, 9) + 16 for wide, _, words in line]
        x = middle - (sum(widths) - 16) / 2
        for (wide, mark, words), step in zip(line, widths):
            yield mark.format(x=f"{x:.1f}", y=y, top=y - 6, mid=f"{x + 8:.1f}", low=y + 3.5)
            yield f'<text class="small left" x="{x + wide + 6:.1f}" y="{y + 3.5}">{words}</text>'
            x += step
        y += 18
