"""A picture in SVG: text and lines in one style, for light and dark."""

STYLE = """
  svg { color: #1c2530; font-family: system-ui, sans-serif; }
  text { fill: currentColor; } .ground { fill: #ffffff; }
  .grid { stroke: #d9dee5; stroke-width: 1; }
  .axis { stroke: #6b7685; stroke-width: 1.2; }
  .line { fill: none; stroke-width: 2.4; stroke-linejoin: round; stroke-linecap: round; }
  .lead { fill: none; stroke-width: 1; opacity: 0.6; }
  .dashed { stroke-dasharray: 7 5; }
  .s0 { stroke: #0b6e69; } .t0 { fill: #0b6e69; }
  .s1 { stroke: #1f6fd6; } .t1 { fill: #1f6fd6; }
  .s2 { stroke: #7a3fc4; } .t2 { fill: #7a3fc4; }
  .s3 { stroke: #c9480f; } .t3 { fill: #c9480f; }
  .s4 { stroke: #59636f; } .t4 { fill: #59636f; }
  .title { font-size: 16px; font-weight: 600; } .note { font-size: 12.5px; } .tick { font-size: 12.5px; }
  .name { font-size: 14px; } .label { font-size: 13.5px; font-weight: 600; }
  @media (prefers-color-scheme: dark) {
    svg { color: #e4e9f0; } .ground { fill: #12171e; }
    .grid { stroke: #2b333e; } .axis { stroke: #8d98a7; }
    .s0 { stroke: #3ecfc5; } .t0 { fill: #3ecfc5; }
    .s1 { stroke: #6db0ff; } .t1 { fill: #6db0ff; }
    .s2 { stroke: #bd93f9; } .t2 { fill: #bd93f9; }
    .s3 { stroke: #ff9457; } .t3 { fill: #ff9457; }
    .s4 { stroke: #a3aebb; } .t4 { fill: #a3aebb; }
  }
"""


class Canvas:
    def __init__(self, width, height):
        self.width = width
        self.height = height
        self.parts = []

    def put(self, part):
        self.parts.append(f"  {part}\n")

    def text(self, x, y, kind, words, anchor="start", more=""):
        self.put(f'<text x="{x:.1f}" y="{y:.1f}" class="{kind}" text-anchor="{anchor}"{more}>{words}</text>')

    def straight(self, x1, y1, x2, y2, kind):
        self.put(f'<line x1="{x1:.1f}" y1="{y1:.1f}" x2="{x2:.1f}" y2="{y2:.1f}" class="{kind}"/>')

    def svg(self, title, more_style=""):
        size = f'viewBox="0 0 {self.width} {self.height}" width="{self.width}" height="{self.height}"'
        head = f'<svg xmlns="http://www.w3.org/2000/svg" {size} role="img">\n'
        ground = '  <rect width="100%" height="100%" class="ground"/>\n'
        style = f"  <style>{STYLE}{more_style}  </style>\n"
        return f"{head}  <title>{title}</title>\n{style}{ground}{''.join(self.parts)}</svg>\n"
