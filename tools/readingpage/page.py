"""The page: rows beside their texts, theorems with what they lean on, edits, cost. Made from READING.md and the sources alone."""
import os
import re
from html import escape

from . import chart, cost, edits, notation, theorems
from .marks import paragraphs, plural, prose, shown
from .sources import TOP, opening

HERE = os.path.dirname(os.path.abspath(__file__))
INTRO = (
    'Each sentence of document 01, the text of the definition that says it, and the text of the contract or law that carries it into '
    'code: of a function the head with its promise, of a law the statement. The comment above a text comes first; for a law that has none '
    'it is what its file opens with. The page is made from docs/READING.md and the sources by `tools/reading --page`, and it is not made '
    'where a row or a name can’t be resolved.')
BELIEVE = (
    'A theorem is as good as its statement. Here is each theorem that READING.md names, with every definition that its statement leans '
    'on, to be opened in place, down to numbers. Each definition stands once, under the first that names it; a name in a text leads to it. '
    'Counted are definitions, records, structs and enums, the statement too; their lines without comments and blank ones; no `use` lines. '
    'The logic reads a struct’s numbers as `ℕ` and its arrays as lists. What else the proofs rest on is in docs/ASSUMPTIONS.md. A '
    'theorem speaks of definitions; that the code is what they say is each function’s contract, in the rows above.')
GUARD = (
    'A must-fail edit is a wrong program or a wrong statement, which the prover must refuse in the gate. It changes the declaration in '
    'which its old text stands (with a constant, the functions that name it). It guards a row that names the edit; a row that names what '
    'it changes, or the definition that the contract of a changed function gives as its answer; and a row from which this is one step, by '
    'a call or by a name in a definition.')
COST = (
    'Lines without comments, blank ones and `use` lines: code is src/ with its contracts, definitions are specs/, and of proofs/ the '
    'statements of laws are laws and all else is proof.')


def slug(text):
    return re.sub(r'[^a-z0-9]+', '-', text.lower()).strip('-')


def read(name):
    with open(os.path.join(HERE, name), encoding='utf-8') as f:
        return f.read()


def declaration_shown(name, one, said, opened):
    """A declaration within the heads of its modules, with the words above it; names that are opened under a theorem lead there."""
    text = [line for head in one.around for line in head] + one.text
    target = theorems.mark(one) if one in opened else None
    return shown(one, name, said, text, theorems.links_to(text, one.path, opened - {one}), target)


def reference_shown(reference, opened):
    """What a cell names in a file: its declarations; of a file without names its opening words."""
    if reference.found:
        bare = next((one for one in reference.found if one.kind == 'law' and not one.comment), None)
        return ''.join(declaration_shown(name, one, opening(one.path) if one is bare else one.comment, opened)
                       for name, one in zip(reference.names, reference.found))
    names = ' '.join(f'<b>{escape(name)}</b>' for name in reference.names)
    said = opening(reference.path) if reference.path.endswith(('.antt', '.rt')) else []
    return (f'<div class="decl"><p class="head">{names} <span class="place">{escape(reference.path)}</span></p>'
            f'{paragraphs(said)}</div>')


def cell_shown(parts, opened):
    return ''.join(f'<p class="note">{prose(part)}</p>' if isinstance(part, str) else reference_shown(part, opened) for part in parts)


def edit_shown(edit, why=''):
    """An edit: what it tries, in its own words or its name's, where, and the lines."""
    words = ' '.join(edit.words) or edit.plain_name
    changed = ' '.join(f'<b>{escape(one.name)}</b>' for one in edit.changed[:1])
    pairs = ''.join(f'<del>{escape(old.strip())}</del><ins>{escape(new.strip())}</ins>' for old, new in edit.pairs)
    note = f' <span class="more">{why}</span>' if why else ''
    return (f'<li><p>{prose(words)}{note}</p><p class="head">{escape(edit.name)}: {changed} '
            f'<span class="place">{escape(edit.file)}:{edit.line}</span></p><pre class="edit"><code>{pairs}</code></pre></li>')


def guards_shown(guarding):
    if not guarding:
        return ''
    items = ''.join(edit_shown(edit, why) for edit, why in guarding)
    return f'<details class="guards"><summary>{plural(len(guarding), "must-fail edit")}</summary><ul>{items}</ul></details>'


def words_of(row, guarding):
    """What the search box looks at: sentence, files, names, edits."""
    words = [row.cells[0]] + [word for r in row.references for word in [r.path, *r.names]] + [edit.name for edit, _ in guarding]
    return ' '.join(words).lower()


def believe_shown(row, listed):
    """For each theorem of the row, how much a reader must believe, and where to read it."""
    return ''.join(f'<p class="note"><a href="#t-{t.statement.name}">What must I believe?</a> {theorems.count(t)} for '
                   f'<code>{escape(t.statement.name)}</code></p>' for t in listed if t.statement in row.declarations)


def row_shown(row, guarding, listed, opened):
    cells = [cell_shown(parts, opened) or '<p class="note">not yet</p>' for parts in row.parts]
    return (f'<article class="row" id="r{row.number}" data-find="{escape(words_of(row, guarding))}"><div class="sentence">'
            f'<p>{prose(row.cells[0])}</p><p class="head"><a class="place" href="#r{row.number}">READING.md:{row.number}</a></p>'
            f'{believe_shown(row, listed)}{guards_shown(guarding)}</div><div class="texts">'
            f'<h4>Definition</h4>{cells[0]}</div><div class="texts"><h4>Carried by</h4>{cells[1]}</div></article>')


def section_shown(section, guarding, listed, opened):
    body = ''.join(row_shown(row, guarding[row.number], listed, opened) for row in section.rows)
    return (f'<section class="rows" id="{slug(section.title)}"><h2>{escape(section.title)}</h2>'
            f'{paragraphs(section.prose)}{body}</section>')


def contents(sections, listed):
    items = ''.join(f'<li><a href="#{slug(section.title)}">{escape(section.title)}</a> <span class="more">{len(section.rows)}</span></li>'
                    for section in sections)
    tops = ''.join(f'<li><a href="#t-{t.statement.name}"><code>{escape(t.statement.name)}</code></a> '
                   f'<span class="more">{len(t.under)}</span></li>' for t in listed)
    ends = '<li><a href="#edits">Edits beside the rows</a></li><li><a href="#cost">The cost of the proofs</a></li>'
    return (f'<nav id="contents" aria-label="Contents"><div><h2>Sections of 01, with how many rows</h2><ul>{items}</ul></div>'
            f'<div><h2>What must I believe? Theorems, with how many definitions</h2><ul>{tops}</ul><h2>And</h2><ul>{ends}</ul></div></nav>')


def edits_shown(every, guarding):
    """How edits guard rows, and the edits that guard none."""
    used = {id(edit) for found in guarding.values() for edit, _ in found}
    rest = [edit for edit in every if id(edit) not in used]
    return (f'<section class="aside" id="edits"><h2>Edits beside the rows</h2><p>{prose(GUARD)}</p><p>{len(every) - len(rest)} of '
            f'{plural(len(every), "edit")} guard a row. The others guard what no row names: ways of the code to the same answer, the '
            f'programs, the mirror for C.</p><details class="list"><summary>{plural(len(rest), "edit")} that guard no row</summary>'
            f'<ul class="edits">{"".join(edit_shown(edit) for edit in rest)}</ul></details></section>')


def cost_shown(words, seconds):
    table = cost.costs(seconds)
    said = 'There is no log to take the seconds from.'
    if seconds:
        said = f'Seconds of each crate’s check are those of one run: {words}.'
    return (f'<section class="aside" id="cost"><h2>The cost of the proofs</h2><p>{prose(COST)} {prose(said)}</p>{chart.legend()}'
            f'<div class="scroll" tabindex="0" role="group" aria-label="Chart">{chart.drawn(table)}</div>'
            f'<details class="list"><summary>The numbers</summary>{chart.table_of(table)}</details></section>')


def made(sections, words, seconds):
    """The whole page."""
    sections = [section for section in sections if section.rows]
    every = edits.all_edits()
    guarding = {row.number: edits.guarded(every, row) for section in sections for row in section.rows}
    listed, opened = theorems.theorems(sections), set()
    trees = ''.join(theorems.section(theorem, opened) for theorem in listed)
    count = sum(len(section.rows) for section in sections)
    parts = {
        'style': read('page.css'),
        'script': read('page.js'),
        'intro': prose(INTRO),
        'count': str(count),
        'notation': notation.shown(),
        'contents': contents(sections, listed),
        'believe': prose(BELIEVE),
        'theorems': trees,
        'rows': ''.join(section_shown(section, guarding, listed, opened) for section in sections),
        'edits': edits_shown(every, guarding),
        'cost': cost_shown(words, seconds),
    }
    return re.sub(r'\{\{(\w+)\}\}', lambda m: parts[m[1]], read('page.html'))


def write(path, sections, words, seconds):
    """Writes the page; says how large it is."""
    text = made(sections, words, seconds)
    os.makedirs(os.path.dirname(path), exist_ok=True)
    with open(path, 'w', encoding='utf-8') as f:
        f.write(text)
    return f'{os.path.relpath(path, TOP)}, {len(text.encode()) // 1024:,} kB'
