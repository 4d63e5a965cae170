"""nvd map: one HTML page, which needs nothing else, that shows what lies where in an image set."""
import argparse
import os
import sys
from html import escape

from known import Known, parts_of, shown_name
from places import Ended, say
from units import shown

USAGE = "nvd map IN >FILE"
# The colours of Okabe and Ito, which colour-blind people tell apart; each has a light or dark text that stands out from it. A pattern tells them
# apart without colours too.
COLOURS = (("#56b4e9", "#000"), ("#e69f00", "#000"), ("#009e73", "#fff"), ("#f0e442", "#000"), ("#0072b2", "#fff"), ("#d55e00", "#fff"), ("#cc79a7", "#000"))
WIDTH, LEFT, RIGHT, ROW = 1000, 110, 20, 34
BAR = WIDTH - LEFT - RIGHT
STYLE = """body{font:15px/1.45 system-ui,sans-serif;max-width:1040px;margin:1.5em auto;padding:0 1em;color:#111;background:#fff}
h1{font-size:1.5em}h2{font-size:1.15em;margin-top:1.8em}svg{width:100%;height:auto;display:block}svg text{font:12px system-ui,sans-serif}
table{border-collapse:collapse;font-size:13px}td,th{border:1px solid #bbb;padding:3px 8px;text-align:left;vertical-align:top}td.n{text-align:right}
.key{display:inline-block;width:1.1em;height:1.1em;border:1px solid #333;vertical-align:-.2em;margin-right:.4em}p.fault{color:#a00}code{font-size:13px}"""
# drawn over a colour: each has another direction or distance
PATTERNS = """<defs>
<pattern id="free" width="6" height="6" patternUnits="userSpaceOnUse"><rect width="6" height="6" fill="#fff"/><circle cx="3" cy="3" r="0.7" fill="#999"/></pattern>
<pattern id="p1" width="8" height="8" patternUnits="userSpaceOnUse" patternTransform="rotate(45)"><rect width="1" height="8" fill="#000" opacity=".35"/></pattern>
<pattern id="p2" width="8" height="8" patternUnits="userSpaceOnUse" patternTransform="rotate(-45)"><rect width="1" height="8" fill="#fff" opacity=".5"/></pattern>
<pattern id="p3" width="6" height="6" patternUnits="userSpaceOnUse"><circle cx="2" cy="2" r="0.9" fill="#000" opacity=".45"/></pattern>
<pattern id="p4" width="8" height="6" patternUnits="userSpaceOnUse"><rect width="8" height="1" fill="#fff" opacity=".5"/></pattern>
<pattern id="broken" width="5" height="5" patternUnits="userSpaceOnUse" patternTransform="rotate(45)"><rect width="2" height="5" fill="#000" opacity=".55"/></pattern>
</defs>"""


class Words(argparse.ArgumentParser):
    def error(self, message):
        say(f"{message}: {USAGE}")
        raise Ended(2)


def counted(found, what):
    return f"{len(found)} {what}{'' if len(found) == 1 else 's'}"


class Drawing:
    """The rows of an SVG picture, from top to bottom."""

    def __init__(self):
        self.items, self.height = [], 4

    def text(self, x, y, text, colour="#111", anchor="start"):
        self.items.append(f'<text x="{x:.1f}" y="{y:.1f}" fill="{colour}" text-anchor="{anchor}">{escape(text)}</text>')

    def box(self, x, width, height, fill, title, text="", colour="#111", pattern=None):
        """A box in the row at the current height, with a title that a pointer shows, and as much of its text as fits."""
        width = max(width, 1.5)
        self.items.append(f'<g><title>{escape(title)}</title><rect x="{x:.1f}" y="{self.height}" width="{width:.1f}" height="{height}" fill="{fill}" stroke="#333" stroke-width="1"/>')
        if pattern:
            self.items.append(f'<rect x="{x:.1f}" y="{self.height}" width="{width:.1f}" height="{height}" fill="url(#{pattern})"/>')
        letters = int((width - 8) / 7)
        if text and letters >= 2:
            cut = text if len(text) <= letters else text[: letters - 1] + "…"
            if pattern:
                self.items.append(f'<rect x="{x + 2:.1f}" y="{self.height + height / 2 - 8:.1f}" width="{min(len(cut) * 7 + 4, width - 4):.1f}" height="16" fill="{fill if fill[0] == "#" else "#fff"}"/>')
            self.text(x + 5, self.height + height / 2 + 4, cut, colour)
        self.items.append("</g>")

    def svg(self, label):
        body = "\n".join(self.items)
        return f'<svg viewBox="0 0 {WIDTH} {self.height + 4}" role="img" aria-label="{escape(label)}">\n{body}\n</svg>'


class Picture:
    """The page of one set."""

    def __init__(self, known):
        self.known = known
        self.looks = {}
        for number, it in enumerate(known.namespaces):
            colour, text = COLOURS[number % len(COLOURS)]
            pattern = (None, "p1", "p2", "p3", "p4")[number // len(COLOURS) % 5]
            self.looks[it["uuid"]] = colour, text, pattern if it["status"].startswith("complete") else "broken"

    def page(self):
        name = os.path.basename(os.path.abspath(self.known.folder))
        yield "<!DOCTYPE html>"
        yield f'<html lang="en"><head><meta charset="utf-8"><meta name="viewport" content="width=device-width"><title>Image set {escape(name)}</title><style>{STYLE}</style></head><body>'
        yield f'<svg style="position:absolute;width:0;height:0" aria-hidden="true">{PATTERNS}</svg>'
        yield f"<h1>Image set {escape(name)}</h1>"
        yield (f"<p>{counted(self.known.modules, 'module')}, {counted(self.known.regions, 'region')}, {counted(self.known.namespaces, 'namespace')}. Bars are to scale from left to right; "
               "a part that would be too thin to see is drawn a little wider. Hold the pointer on a part to read its bytes.</p>")
        yield from self.legend()
        yield "<h2>Modules</h2>"
        yield self.modules()
        yield "<h2>Regions</h2>"
        yield from self.regions()
        yield from self.arenas()
        yield "<h2>Namespaces</h2>"
        yield from self.namespaces()
        yield "</body></html>"

    def legend(self):
        yield "<p>"
        for it in self.known.namespaces:
            colour, _, pattern = self.looks[it["uuid"]]
            yield f'<span style="white-space:nowrap;margin-right:1.2em"><svg class="key" viewBox="0 0 16 16"><rect width="16" height="16" fill="{colour}"/>'
            yield (f'<rect width="16" height="16" fill="url(#{pattern})"/>' if pattern else "") + f"</svg>{escape(shown_name(it) or '(no name)')}</span>"
        yield f'<span style="white-space:nowrap"><svg class="key" viewBox="0 0 16 16"><rect width="16" height="16" fill="url(#free)"/></svg>free</span></p>'

    def modules(self):
        drawing = Drawing()
        for it in self.known.modules:
            module = it["module"]
            size = self.known.size_of(module) or 1
            scale = BAR / size
            drawing.text(4, drawing.height + 14, f"module {module}")
            drawing.text(4, drawing.height + 30, shown(size), "#555")
            for mapping, region in self.known.mapped(module):
                what = f"region {region['region']}" if region else f"range {mapping['index']}"
                drawing.box(LEFT + mapping["start"] * scale, mapping["size"] * scale, 18, "#ddd", f"{what}: bytes {mapping['start']} to {mapping['start'] + mapping['size']} of module {module}", what)
            drawing.height += 18
            drawing.box(LEFT, size * scale, ROW, "#fff", f"module {module}: {shown(size)} bytes")
            for start, length in self.known.holes_on(module):
                drawing.box(LEFT + start * scale, length * scale, ROW, "url(#free)", f"free: {shown(length)} bytes from {start}", "free")
            for extent, namespace in self.known.extents_on(module):
                colour, text, pattern = self.looks[namespace["uuid"]]
                title = f"{shown_name(namespace)}, {namespace['status']}: {shown(extent['length'])} bytes from {extent['start']}"
                drawing.box(LEFT + extent["start"] * scale, extent["length"] * scale, ROW, colour, title, shown_name(namespace), text, pattern)
            drawing.height += ROW
            self.labels(drawing, module)
            drawing.height += 14
        return drawing.svg("modules with their mappings, namespaces and free space")

    def labels(self, drawing, module):
        """A line on a module's label area, with a cell for each slot if they are few."""
        area = self.known.areas[module]
        index = area["index"]
        if not index:
            drawing.text(LEFT, drawing.height + 14, f"label area: {area.get('fault', 'none')}", "#a00")
        else:
            bad = f", {len(area['bad'])} bad" if area["bad"] else ""
            drawing.text(LEFT, drawing.height + 14, f"label area: {index['slots'] - index['free']} of {index['slots']} slots used{bad}, sequence number {index['seq']}", "#333")
        drawing.height += 20

    def regions(self):
        for region in self.known.regions:
            if "fault" in region:
                yield f"<p class='fault'>Region {region['region']} is no interleave set: {escape(region['fault'])}</p>"
                continue
            free = self.known.free.get(region["region"])
            ways = len(region["modules"])
            yield (f"<p><b>Region {region['region']}</b>: {shown(region['length'])} bytes from address {region['base']:#x}, cookie <code>{region['cookie']}</code>, unit {region['unit']}. "
                   + (f"Free: {shown(free['available'])} bytes in {free['pieces']} {'piece' if free['pieces'] == 1 else 'pieces'}, the largest takes a namespace of {shown(free['largest'])} bytes." if free else "") + "</p>")
            yield self.region(region, ways)
            if ways > 1:
                yield self.interleaving(region)

    def region(self, region, ways):
        """The bytes of each module side by side: a namespace lies at one offset on all of them."""
        drawing, span = Drawing(), region["length"] // ways
        scale = BAR / max(span, 1)
        for module in region["modules"]:
            start = next(it["start"] for it, of in self.known.mapped(module) if of is region)
            drawing.text(4, drawing.height + 19, f"module {module}")
            drawing.box(LEFT, BAR, 28, "url(#free)", f"region {region['region']} on module {module}: {shown(span)} bytes", "free")
            for extent, namespace in self.known.extents_on(module):
                at = extent["start"] - start
                if 0 <= at < span:
                    colour, text, pattern = self.looks[namespace["uuid"]]
                    title = f"{shown_name(namespace)}: {shown(extent['length'])} bytes at offset {at}"
                    drawing.box(LEFT + at * scale, extent["length"] * scale, 28, colour, title, shown_name(namespace), text, pattern)
            drawing.height += 28
        return drawing.svg(f"region {region['region']}")

    def interleaving(self, region):
        """The first bytes of the region, each line with its module."""
        drawing, ways = Drawing(), len(region["modules"])
        lines = sorted((it["offset"], module) for module in region["modules"] for it, of in self.known.mapped(module) if of is region)
        size = lines[1][0] - lines[0][0] if len(lines) > 1 else region["unit"]
        count = min(max(2 * ways, 8), 32)
        drawing.text(4, drawing.height + 17, "lines")
        for number in range(count):
            module = lines[number % ways][1]
            drawing.box(LEFT + number * BAR / count, BAR / count, 24, "#eee" if number % 2 else "#ccc", f"bytes {number * size} to {(number + 1) * size} of the region: module {module}", str(module))
        drawing.height += 38
        drawing.text(LEFT, drawing.height, f"the region's first {count} lines of {shown(size)} bytes, each with its module; in this order to the end")
        return drawing.svg(f"interleaving of region {region['region']}")

    def arenas(self):
        names = {it["uuid"]: shown_name(it) for it in self.known.namespaces}
        for uuid, arenas in self.known.arenas.items():
            yield f"<h2>Arenas of {escape(names[uuid])}</h2>"
            if isinstance(arenas, str):
                yield f"<p class='fault'>{escape(arenas)}</p>"
                continue
            for arena in arenas:
                yield (f"<p>Arena {arena['arena']}: {arena['sectors']} sectors of {arena['sector']} bytes, {arena['blocks']} blocks, {arena['lanes']} lanes, "
                       f"{arena['moves']} pending moves.</p>")
                yield self.arena(arena, uuid)

    def arena(self, arena, uuid):
        drawing, parts = Drawing(), parts_of(arena)
        least, whole = 14, sum(size for _, size in parts)
        widths = [max(size * BAR / whole, least) for _, size in parts]
        # the largest part gives what the thin ones take
        widths[1] -= sum(widths) - BAR
        looks = (("#999", "#000"), self.looks[uuid][:2], ("#0072b2", "#fff"), ("#d55e00", "#fff"), ("#999", "#000"))
        at = LEFT
        drawing.text(4, drawing.height + 21, f"arena {arena['arena']}")
        for (name, size), width, (colour, text) in zip(parts, widths, looks):
            drawing.box(at, width, ROW, colour, f"{name}: {shown(size)} bytes", name, text)
            at += width
        drawing.height += ROW + 16
        drawing.text(LEFT, drawing.height, ", ".join(f"{name} {shown(size)}" for name, size in parts))
        return drawing.svg(f"parts of arena {arena['arena']}")

    def namespaces(self):
        if not self.known.namespaces:
            yield "<p>None.</p>"
            return
        yield "<table><tr><th>name<th>UUID<th>region<th>mode<th>bytes<th>status<th>extents: module, first byte, bytes</tr>"
        for it in self.known.namespaces:
            extents = "<br>".join(f"{part['module']}, {part['start']}, {shown(part['length'])}" for part in it["extents"])
            region = "-" if it["region"] is None else it["region"]
            yield f"<tr><td>{escape(shown_name(it))}<td><code>{it['uuid']}</code><td>{region}<td>{escape(it['mode'])}<td class=n>{shown(it['size'])}<td>{escape(it['status'])}<td>{extents}</tr>"
        yield "</table>"


def main(program, words):
    parser = Words(prog="nvd map", add_help=False)
    parser.add_argument("IN")
    given = parser.parse_args(words)
    if sys.stdout.isatty():
        say(f"the page would go to the terminal: {USAGE}, and open FILE in a browser")
        return 2
    text = "\n".join(Picture(Known(program, given.IN)).page()) + "\n"
    sys.stdout.write(text)
    return 0
