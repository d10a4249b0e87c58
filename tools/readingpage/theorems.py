"""The theorems that READING.md names, and for each what a reader must believe: the definitions that its statement leans on.

A theorem is a statement of specs/ or proofs/ (a definition or record that takes nothing and is a `Type`) in a row whose last column names
a law that has the statement's name in snake case, and whose type is that statement.
"""
import dataclasses
import os
import re
from html import escape

from .leaning import closure, reached, scope, uses_of
from .marks import code, comment, place, plural, prose
from .rows import Row
from .sources import TOP, Declaration, Unresolved, by_name, left_out

FIRST = ('crates/demand/specs/Shown.antt', 'PictureIsRight')  # demand 3, which is opened first


@dataclasses.dataclass
class Theorem:
    statement: Declaration
    law: Declaration
    row: Row
    under: dict
    kit: set


def snake(name):
    return re.sub(r'(?<!^)(?=[A-Z])', '_', name).lower()


def is_statement(one):
    head = ' '.join(one.text[0].split())
    return one.path.endswith('.antt') and re.search(rf'\b{re.escape(one.name)} : Type\b', head) is not None


def theorem_of(statement, law, row):
    says = ' '.join(' '.join(law.text).split())
    if not says.endswith(f'{law.name} : {statement.name}'):
        raise Unresolved(f'{law.place}: {law.name} does not state {statement.name}')
    return Theorem(statement, law, row, *closure(statement))


def theorems(sections):
    """Each theorem once, that of demand 3 first."""
    found = {}
    for row in [row for section in sections for row in section.rows]:
        laws = {one.name: one for one in row.declarations if one.kind == 'law'}
        for one in row.declarations:
            if is_statement(one) and snake(one.name) in laws and one not in found:
                found[one] = theorem_of(one, laws[snake(one.name)], row)
    path, name = FIRST
    first = by_name(path).get(name) if os.path.exists(os.path.join(TOP, path)) else None
    if first not in found and path.split('/')[1] not in left_out():
        raise Unresolved(f'no row of docs/READING.md names {name} of {path} with the law {snake(name)}')
    return sorted(found.values(), key=lambda t: t.statement is not first)


def mark(one):
    """The id of a definition's place on the page."""
    return 'd-' + re.sub(r'[^A-Za-z0-9]+', '-', one.path[7:].rsplit('.', 1)[0]) + '-' + re.sub(r'[^A-Za-z0-9_]+', '-', one.name)


def links(one):
    """Where the names of a definition's text lead, by line."""
    by_line = {}
    for row, column, word, target in sorted(uses_of(one)[0], key=lambda use: use[:2]):
        if not isinstance(target, str) and target is not one:
            by_line.setdefault(row, []).append((column, word, mark(target)))
    return by_line


def links_to(text, path, opened):
    """Where the names of any text of a file lead, by line: to what is opened under a theorem."""
    by_line, mark_of_comment = {}, '--' if path.endswith('.antt') else '//'
    for row, line in enumerate(text):
        for found in re.finditer(r'[^\s(){};,.]+', line.split(mark_of_comment)[0]):
            target = scope(path)[0].get(found[0])
            if not isinstance(target, str) and target in opened and target.kind != 'fn':
                by_line.setdefault(row, []).append((found.start(), found[0], mark(target)))
    return by_line


def node(one, children, inside=False):
    """A definition with those that are opened under it; others that it names are links in its text."""
    here = children.get(one, [])
    deep = len(reached(one)) - 1
    more = f'leans on {deep}' if deep else 'numbers and the kit’s names'
    first = re.split(r'(?<=[^. ])\. ', ' '.join(one.comment))[0]
    head = f'<b>{escape(one.name)}</b> <span class="gist">{prose(first)}</span> <span class="more">{more}</span>'
    body = f'<p class="head">{place(one)}</p>{comment(one.comment)}{code(one.text, one.path, links(one))}'
    body += ''.join(node(child, children, True) for child in here)
    opened = '' if inside else ' open'
    return f'<details class="lean"{opened}><summary>{head}</summary><div id="{mark(one)}">{body}</div></details>'


def tree(theorem, done):
    """The definitions of a theorem that no theorem before it has shown, each under the first that names it."""
    children, root = {}, theorem.statement
    if root in done:
        return f'<p>It is opened under <a href="#{mark(root)}">what leans on it</a>.</p>'
    for one, parent in theorem.under.items():
        if one not in done and parent is not None:
            shown_under = parent if parent not in done else root
            children.setdefault(shown_under, []).append(one)
    done |= set(theorem.under)
    return node(root, children)


def by_crate(theorem):
    """How many definitions and lines are in each crate, the most lines first."""
    crates = {}
    for one in theorem.under:
        crates.setdefault(one.crate, []).append(one)
    rows = [(sum(one.size for one in found), crate, found) for crate, found in crates.items()]
    cells = ''.join(f'<tr><th scope="row">{escape(crate)}</th><td>{len(found):,}</td><td>{lines:,}</td>'
                    f'<td>{len({one.path for one in found})}</td></tr>' for lines, crate, found in sorted(rows, key=lambda row: -row[0]))
    head = ''.join(f'<th scope="col">{word}</th>' for word in ('crate', 'definitions', 'lines', 'files'))
    return (f'<details class="list"><summary>By crate</summary><table class="costs"><thead><tr>{head}</tr></thead>'
            f'<tbody>{cells}</tbody></table></details>')


def of_kit(theorem):
    """The kit's names at the leaves, by module."""
    table = {}
    for name in sorted(theorem.kit):
        module, _, word = name.rpartition('.')
        table.setdefault(module or 'of the language', []).append(word)
    items = ''.join(f'<li><code>{escape(m)}</code>: {" ".join(f"<code>{escape(w)}</code>" for w in words)}</li>'
                    for m, words in sorted(table.items()))
    return f'<details class="list"><summary>{plural(len(theorem.kit), "name")} of the kit</summary><ul>{items}</ul></details>'


def count(theorem):
    lines = sum(one.size for one in theorem.under)
    return f'{plural(len(theorem.under), "definition")}, {plural(lines, "line")}'


def answer(theorem):
    """The count that answers "what must I believe?"."""
    under = theorem.under
    return (f'<p class="believe"><strong>{count(theorem)}</strong>, in '
            f'{plural(len({one.path for one in under}), "file")} of {plural(len({one.crate for one in under}), "crate")}; below them '
            f'{plural(len(theorem.kit), "name")} of the kit.</p>')


def section(theorem, done):
    name, law, row = theorem.statement.name, theorem.law, theorem.row
    return (f'<section class="theorem aside" id="t-{name}"><h3><code>{escape(name)}</code></h3><p>{prose(row.cells[0])} '
            f'(<a href="#r{row.number}">its row</a>)</p><p>Proved as <b>{escape(law.name)}</b> {place(law)}. What must I believe?</p>'
            f'{answer(theorem)}{by_crate(theorem)}{of_kit(theorem)}{tree(theorem, done)}</section>')
