"""The cost of the proofs as a drawn chart (SVG) and as a table."""
from html import escape

KINDS = (('code', 'code, with contracts'), ('definitions', 'definitions'), ('laws', 'laws, statements'), ('proofs', 'proofs'))
ROW, NAME, LINES, TIME, TOP_ROOM = 17, 84, 470, 190, 40
GAP = 64


def rounded(most):
    """A round number not below the greatest, and its steps."""
    step = next(s * 10 ** e for e in range(9) for s in (1, 2, 5) if most / (s * 10 ** e) <= 5)
    return -(-most // step) * step, step


def axis(left, width, most, unit, height):
    """Thin lines with their numbers, and what they count."""
    top, step = rounded(most)
    for value in range(0, top + 1, step):
        x = left + width * value / top
        yield f'<line class="grid" x1="{x:.1f}" x2="{x:.1f}" y1="{TOP_ROOM - 4}" y2="{height}"/>'
        yield f'<text class="tick" x="{x:.1f}" y="{TOP_ROOM - 9}" text-anchor="middle">{value:,}</text>'
    yield f'<text class="tick" x="{left}" y="12">{unit}</text>'


def bars(one, y, top):
    x = NAME
    for kind, words in KINDS:
        width = LINES * getattr(one, kind) / top
        if width:
            yield (f'<rect class="{kind}" x="{x:.1f}" y="{y}" width="{width:.1f}" height="{ROW - 6}">'
                   f'<title>{one.crate}: {getattr(one, kind):,} lines of {words}</title></rect>')
        x += width
    yield f'<text class="value" x="{x + 5:.1f}" y="{y + 10}">{sum(getattr(one, kind) for kind, _ in KINDS):,}</text>'


def drawn(table):
    """The chart: for each crate its lines, in four colours, and its seconds."""
    height = TOP_ROOM + ROW * len(table) + 2
    most = max(sum(getattr(one, kind) for kind, _ in KINDS) for one in table)
    slowest = max([one.seconds or 0 for one in table] + [1])
    left = NAME + LINES + GAP
    parts = [*axis(NAME, LINES, most, 'lines', height), *axis(left, TIME, slowest, 'seconds of the check', height)]
    for k, one in enumerate(table):
        y = TOP_ROOM + ROW * k + 3
        parts.append(f'<text class="name" x="{NAME - 8}" y="{y + 10}" text-anchor="end">{escape(one.crate)}</text>')
        parts += bars(one, y, rounded(most)[0])
        if one.seconds is not None:
            width = TIME * one.seconds / rounded(slowest)[0]
            parts.append(f'<rect class="seconds" x="{left}" y="{y}" width="{width:.1f}" height="{ROW - 6}">'
                         f'<title>{one.crate}: {one.seconds} s</title></rect>')
            parts.append(f'<text class="value" x="{left + width + 5:.1f}" y="{y + 10}">{one.seconds}</text>')
    wide = left + TIME + 40
    return (f'<svg class="chart" viewBox="0 0 {wide} {height}" role="img" aria-label="Lines and seconds by crate; the table below has '
            f'the numbers">{"".join(parts)}</svg>')


def legend():
    items = ''.join(f'<li><span class="key {kind}"></span>{words}</li>' for kind, words in KINDS)
    return f'<ul class="legend">{items}<li><span class="key seconds"></span>seconds of the check</li></ul>'


def table_of(table):
    """The same numbers as a table, with their sums."""
    heads = ''.join(f'<th scope="col">{word}</th>' for word in ('crate', 'code', 'definitions', 'laws', 'proofs', 'seconds'))
    rows = []
    for one in table:
        cells = ''.join(f'<td>{getattr(one, kind):,}</td>' for kind, _ in KINDS)
        rows.append(f'<tr><th scope="row">{escape(one.crate)}</th>{cells}<td>{"" if one.seconds is None else one.seconds}</td></tr>')
    sums = ''.join(f'<td>{sum(getattr(one, kind) for one in table):,}</td>' for kind, _ in KINDS)
    total = sum(one.seconds or 0 for one in table)
    rows.append(f'<tr class="sum"><th scope="row">all</th>{sums}<td>{total or ""}</td></tr>')
    return f'<table class="costs"><thead><tr>{heads}</tr></thead><tbody>{"".join(rows)}</tbody></table>'
