"""A marked paper as a page: one file with no outside parts, for the screen and for print, in colour or without.

Verdicts, metrics, bits and magnitudes are those of the listing; words, soft outputs and layers come from the decoder and the splitter. Nothing is marked here.
"""

from __future__ import annotations

from html import escape
from typing import Iterable, NamedTuple

from . import calls
from .calls import Question, Refusal

STYLE = """
:root { color-scheme: light }
body { font: 15px/1.45 system-ui, sans-serif; color: #111; background: #fff; max-width: 62rem; margin: 1.5rem auto; padding: 0 1rem }
h1 { font-size: 1.5rem; margin: 0 0 .3rem } h2 { font-size: 1.15rem; margin: 0 0 .2rem } h3 { font-size: .9rem; margin: .9rem 0 .2rem }
p { margin: .3rem 0 } section { border-top: 2px solid #111; margin-top: 1.6rem; padding-top: .6rem; break-inside: avoid }
table { border-collapse: collapse; font-variant-numeric: tabular-nums } th, td { border: 1px solid #999; padding: .12rem .5rem; text-align: right }
thead th { background: #eee } thead { display: table-header-group } tr { break-inside: avoid } caption { text-align: left; padding: .2rem 0 }
#paper td:nth-child(3), #paper th:nth-child(3) { text-align: left } a { color: inherit }
.verdict { padding: .05rem .5rem; border-radius: .2rem; border: 2px solid; font-weight: 600; white-space: nowrap }
.best { background: #dff3e3; border-color: #1b7a34; color: #0f4a1f } .short { background: #fff1d0; border: 2px dashed #a86400; color: #5f3800 }
.none { background: #fbdcdc; border: 4px double #b01818; color: #6d0d0d } .refused { background: #fbdcdc; border: 4px double #b01818; padding: .6rem 1rem }
.words td, .words th { min-width: 1.3rem; text-align: center; padding: .12rem .25rem } .words th:first-child { text-align: left; padding-right: .7rem }
.words .differs { background: #111; color: #fff; font-weight: 700 } .layers td { text-align: left } .layers code { font-size: .95em; letter-spacing: .12em }
svg.bars { display: block; max-width: 100%; height: auto } .bars text { font: 8.5px ui-monospace, "DejaVu Sans Mono", monospace; fill: #111 }
.bars .band { fill: #f1f1f1 } .bars .bar { fill: #2a5a9b; stroke: #12345f } .bars .against { fill: #fff; stroke: #12345f; stroke-dasharray: 2 1 }
.bars .axis { stroke: #111 } .bars .full { stroke: #aaa; stroke-dasharray: 3 3 } .bars .undecided { fill: url(#hatch); stroke: #111 } .bars .mark { font-weight: 700; font-size: 11px }
.note { color: #333 } footer { border-top: 2px solid #111; margin-top: 1.6rem; padding-top: .4rem }
* { -webkit-print-color-adjust: exact; print-color-adjust: exact } @page { size: A4; margin: 14mm }
@media print { body { font-size: 11px; max-width: none; margin: 0; padding: 0 } .guide { break-after: avoid } }
"""

HATCH = """<svg width="0" height="0" style="position:absolute" aria-hidden="true"><defs><pattern id="hatch" width="4" height="4" patternUnits="userSpaceOnUse">
<path d="M0 4L4 0" stroke="#111" stroke-width="1"/></pattern></defs></svg>"""

GUIDE = """<p class="guide note">A question's row and its soft outputs stand bit by bit, in the order of the bits: position 0 first, and within a position layer 1
first. A bar upwards favours 0, a bar downwards favours 1. A hollow, dashed bar of the row is one that the decoded word goes against. A soft output is the
greatest metric of a codeword with 0 at that bit less the greatest with 1; where it is 0 the bit is undecided, is hatched and shows as a question mark, and
several words are best: the decoded word is the first of them.</p>
<p class="guide note">Layer j of a word is the bit of weight 2<sup>j-1</sup> of each symbol. Its syndrome says in which coset of the BCH code it lies, the leader
is that coset's word of least weight, and the layer with the leader added is a BCH word. The syndromes together are the word's configuration.</p>"""


class Line(NamedTuple):
    """A line of the listing, by its fields."""

    number: str
    code: str
    best: str
    verdict: str
    short: str
    bits: str
    least: str

    @property
    def in_words(self) -> str:
        return {"best": "best", "short": f"short by {self.short}", "none": "none: no codeword"}[self.verdict]


def page_of(sheet: calls.Bytes, name: str = "") -> str:
    """The page of a sheet, accepted or refused; `name` is what the sheet is called."""
    try:
        asked = list(calls.questions(sheet))
    except Refusal as refused:
        return _page(name, f'<p class="refused" role="alert">This sheet is <strong>refused by {refused.number}</strong>: {escape(refused.words)}.</p>\n')
    lines = [Line(*line.split(" ")) for line in calls.list_sheet(sheet).splitlines()[1:-1]]
    sections = "".join(_section(at, *both) for at, both in enumerate(zip(asked, lines), 1))
    return _page(name, f"{_paper(lines)}{GUIDE if lines else ''}\n{sections}<footer>{len(lines)} questions</footer>\n")


def _page(name: str, body: str) -> str:
    title = f"Marked paper: {name}" if name else "Marked paper"
    return (
        '<!DOCTYPE html>\n<html lang="en">\n<head>\n<meta charset="utf-8">\n<meta name="viewport" content="width=device-width">\n'
        "<meta http-equiv=\"Content-Security-Policy\" content=\"default-src 'none'; style-src 'unsafe-inline'\">\n"
        f"<title>{escape(title)}</title>\n<style>{STYLE}</style>\n</head>\n<body>\n{HATCH}\n<h1>{escape(title)}</h1>\n{body}</body>\n</html>\n"
    )


def _paper(lines: list[Line]) -> str:
    """The paper as a table."""
    counts = ", ".join(f"{sum(line.verdict == verdict for line in lines)} {verdict}" for verdict in ("best", "short", "none"))
    rows = "".join(
        f'<tr><td><a href="#q{at}">{line.number}</a></td><td>{line.code}</td><td>{_verdict(line)}</td><td>{line.short}</td><td>{line.best}</td>'
        f"<td>{line.least}</td></tr>\n"
        for at, line in enumerate(lines, 1)
    )
    heads = "".join(f'<th scope="col">{head}</th>' for head in ("question", "code", "verdict", "shortfall", "best metric", "least magnitude"))
    return f'<p>{len(lines)} questions: {counts}.</p>\n<table id="paper">\n<thead><tr>{heads}</tr></thead>\n<tbody>\n{rows}</tbody>\n</table>\n'


def _verdict(line: Line) -> str:
    return f'<span class="verdict {line.verdict}">{line.in_words}</span>'


def _section(at: int, question: Question, line: Line) -> str:
    n, k, bits = calls.lengths(question.code)
    m = bits // n
    decoded = calls.decode(question.code, question.row)
    hollow = [(r < 0) != bool(decoded.word[b // m] >> b % m & 1) and r != 0 for b, r in enumerate(question.row)]
    undecided = line.bits.count("?")
    says = f"{undecided} undecided bits: several words are best" if undecided else "every bit is decided: one word is best"
    return (
        f'<section id="q{at}">\n<h2>Question {line.number} {_verdict(line)}</h2>\n'
        f"<p>Code {line.code}, ({n}, {k}). Best metric {line.best}, least magnitude of a soft output {line.least}; {says}.</p>\n"
        f"<h3>Row</h3>\n{_bars('Row', question.row, m, calls.MOST_RELIABILITY, hollow)}"
        f"<h3>Soft outputs and decided bits</h3>\n{_bars('Soft outputs', decoded.soft, m, max(map(abs, decoded.soft)), [], line.bits)}"
        f"<h3>Words</h3>\n{_words(question.word, decoded.word)}"
        f"<h3>Layers</h3>\n{_layers(question.code, m, 'decoded word', decoded.word)}{_handed_in(question, line, m, decoded.word)}</section>\n"
    )


# --- words and layers


def _words(handed_in: list[int], decoded: list[int]) -> str:
    differs = [a != b for a, b in zip(handed_in, decoded)]

    def row(head: str, cells: Iterable[object]) -> str:
        marked = (f'<td class="differs">{cell}</td>' if other else f"<td>{cell}</td>" for cell, other in zip(cells, differs))
        return f'<tr><th scope="row">{head}</th>{"".join(marked)}</tr>\n'

    positions = "".join(f'<th scope="col">{i}</th>' for i in range(len(decoded)))
    return (
        f'<table class="words">\n<thead><tr><th scope="col">position</th>{positions}</tr></thead>\n<tbody>\n{row("handed in", handed_in)}'
        f"{row('decoded', decoded)}{row('differ', ('≠' if d else '' for d in differs))}</tbody>\n</table>\n"
    )


def _layers(code: int, m: int, whose: str, word: list[int]) -> str:
    configuration, bch = calls.split(code, word)
    n = len(word)
    rows = ""
    for j in range(m):
        layer = [symbol >> j & 1 for symbol in word]
        left = bch[j * n : (j + 1) * n]
        leader = [a ^ b for a, b in zip(layer, left)]
        cells = "".join(f"<td><code>{''.join(map(str, each))}</code></td>" for each in (layer, leader, left))
        rows += f'<tr><th scope="row">{j + 1}</th><td>{configuration[j]}</td>{cells}</tr>\n'
    heads = "".join(f'<th scope="col">{head}</th>' for head in ("layer", "syndrome", "its bits", "leader", "BCH word"))
    shown = ", ".join(map(str, configuration[:m]))
    return (
        f'<table class="layers">\n<caption>Of the {whose}: configuration ({shown})</caption>\n<thead><tr>{heads}</tr></thead>\n'
        f"<tbody>\n{rows}</tbody>\n</table>\n"
    )


def _handed_in(question: Question, line: Line, m: int, decoded: list[int]) -> str:
    if line.verdict == "none":
        return '<p class="note">The word handed in is no codeword: its layers have no configuration.</p>\n'
    if question.word == decoded:
        return '<p class="note">The word handed in is the decoded word.</p>\n'
    return _layers(question.code, m, "word handed in", question.word)


# --- bars

PITCH, WIDE, GAP, LEFT = 14, 9, 8, 40
HIGH, LABEL = 50, 32
ZERO = HIGH + LABEL


def _bars(what: str, values: list[int], m: int, full: int, hollow: list[bool], bits: str = "") -> str:
    """A bar for each bit, symbols on bands of their own; `full` is as much as the axis shows."""
    count = len(values) // m
    step = m * PITCH + GAP
    right, foot = LEFT + count * step, 2 * ZERO + (28 if bits else 14)
    parts = []
    for i in range(count):
        if i % 2 == 0:
            parts.append(f'<rect class="band" x="{LEFT + i * step - GAP // 2}" y="0" width="{step}" height="{foot}"/>')
        parts.append(f'<text x="{LEFT + i * step + m * PITCH / 2:g}" y="{foot - 4}" text-anchor="middle">{i}</text>')
    for side, edge in ((1, ZERO - HIGH), (-1, ZERO + HIGH)):
        parts.append(f'<path class="full" d="M{LEFT - 4} {edge}H{right - 4}"/><text x="{LEFT - 8}" y="{edge + 3}" text-anchor="end">{side * full}</text>')
    parts.append(f'<path class="axis" d="M{LEFT - 4} {ZERO}H{right - 4}"/><text x="{LEFT - 8}" y="{ZERO + 3}" text-anchor="end">0</text>')
    for b, value in enumerate(values):
        x = LEFT + b // m * step + b % m * PITCH + (PITCH - WIDE) / 2
        high = round(abs(value) * HIGH / max(full, 1), 1)
        top = ZERO - high if value > 0 else ZERO
        if bits[b : b + 1] == "?":
            parts.append(f'<rect class="undecided" x="{x:g}" y="{ZERO - HIGH}" width="{WIDE}" height="{2 * HIGH}"/>')
        if value:
            kind = "against" if hollow and hollow[b] else "bar"
            parts.append(f'<rect class="{kind}" x="{x:g}" y="{top:g}" width="{WIDE}" height="{high:g}"/>')
        end, anchor = (ZERO + high + 3, "end") if value < 0 else (top - 3, "start")
        if bits[b : b + 1] != "?":
            parts.append(f'<text transform="translate({x + 7.5:g} {end:g})rotate(-90)" text-anchor="{anchor}">{value}</text>')
        if bits:
            mark = ' class="mark"' if bits[b] == "?" else ""
            parts.append(f'<text{mark} x="{x + WIDE / 2:g}" y="{2 * ZERO + 10}" text-anchor="middle">{bits[b]}</text>')
    names = f'<text x="0" y="{foot - 4}">position</text>' + (f'<text x="0" y="{2 * ZERO + 10}">bit</text>' if bits else "")
    label = f"{what}: {' '.join(map(str, values))}" + (f"; bits {bits}" if bits else "")
    body = "\n".join(parts)
    return f'<svg class="bars" role="img" aria-label="{label}" width="{right}" viewBox="0 0 {right} {foot}">\n{names}\n{body}\n</svg>\n'
