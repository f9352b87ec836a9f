"""Parts of pictures in SVG, in colours for light and dark pages."""

STYLE = """<style>
text { font-family: sans-serif; font-size: 13px; fill: #24292f; }
.head { font-size: 14px; font-weight: bold; }
.small { font-size: 11px; fill: #57606a; }
.word { font-family: monospace; font-size: 12px; }
.bad.word, .bad.small { stroke: none; fill: #cf222e; }
.box { fill: #0969da; fill-opacity: 0.10; stroke: #0969da; }
.lost { fill: #cf222e; fill-opacity: 0.12; stroke: #cf222e; stroke-dasharray: 5 3; }
.none { fill: #57606a; fill-opacity: 0.06; stroke: #8c959f; stroke-dasharray: 2 3; }
.plain { fill: none; stroke: #8c959f; }
.line { fill: none; stroke: #57606a; stroke-width: 1.4; }
.thin { fill: none; stroke: #8c959f; stroke-width: 1; stroke-dasharray: 2 3; }
.bad { fill: none; stroke: #cf222e; stroke-width: 1.8; }
.good { fill: none; stroke: #0969da; stroke-width: 1.8; }
.tip { fill: #57606a; }
.badtip { fill: #cf222e; }
.goodtip { fill: #0969da; }
@media (prefers-color-scheme: dark) {
text { fill: #e6edf3; }
.small { fill: #9da7b3; }
.bad.word, .bad.small { fill: #f85149; }
.box { fill: #4493f8; stroke: #4493f8; }
.lost { fill: #f85149; stroke: #f85149; }
.plain { stroke: #656c76; }
.line { stroke: #9da7b3; }
.thin { stroke: #656c76; }
.bad { stroke: #f85149; }
.good { stroke: #4493f8; }
.tip { fill: #9da7b3; }
.badtip { fill: #f85149; }
.goodtip { fill: #4493f8; }
}
</style>"""

TIPS = "".join(
    [
        "<defs>\n",
        *(
            f'<marker id="{name}" viewBox="0 0 8 8" refX="7" refY="4" markerWidth="8" markerHeight="8" markerUnits="userSpaceOnUse" orient="auto">'
            f'<path class="{name}" d="M0 0 L8 4 L0 8 Z"/></marker>\n'
            for name in ("tip", "badtip", "goodtip")
        ),
        "</defs>",
    ]
)


def escaped(text):
    return str(text).replace("&", "&amp;").replace("<", "&lt;").replace(">", "&gt;")


def picture(width, height, title, parts):
    head = f'<svg xmlns="http://www.w3.org/2000/svg" width="{width}" height="{height}" viewBox="0 0 {width} {height}" role="img">'
    return "\n".join([head, f"<title>{escaped(title)}</title>", STYLE, TIPS, *parts, "</svg>", ""])


def words(x, y, text, kind="", anchor="middle"):
    kind = f' class="{kind}"' if kind else ""
    return f'<text x="{x:g}" y="{y:g}" text-anchor="{anchor}"{kind}>{escaped(text)}</text>'


def box(x, y, width, height, kind="box"):
    return f'<rect class="{kind}" x="{x:g}" y="{y:g}" width="{width:g}" height="{height:g}" rx="4"/>'


def line(path, kind="line"):
    return f'<path class="{kind}" d="{path}"/>'


def arrow(path, kind="line"):
    tip = {"bad": "badtip", "good": "goodtip"}.get(kind, "tip")
    return f'<path class="{kind}" d="{path}" marker-end="url(#{tip})"/>'
