"""The must-fail edits, what each changes, and which rows of READING.md it guards.

An edit changes the declaration in which its `old` text stands; a change of a constant counts as one of the functions of its file
that name it. It guards a row that names the edit itself; a row that names what it changes, or the definition that the contract of a
function that it changes gives as its answer; and a row from which this is one step: what a function of the row calls, what a
definition of it names.
"""
import dataclasses
import functools
import os
import re

from .leaning import below, promised
from .sources import TOP, Unresolved, blanked, by_name, crates, declarations, files, lines_of, text_of


@dataclasses.dataclass(eq=False)
class Edit:
    path: str
    words: list  # what it tries, in its own words
    file: str
    pairs: list  # old and new
    line: int  # of the first change
    changed: list  # the declarations

    @property
    def name(self):
        return self.path.split('/')[1] + '/' + os.path.basename(self.path)[:-5]

    @property
    def plain_name(self):
        """Its name as words, with what docs/EVIDENCE.md says of it in brackets."""
        told = re.search(rf'(?<![\w/]){self.name} \(([^()]*)\)', ' '.join(text_of('docs/EVIDENCE.md').split()))
        return self.name.split('/')[1].replace('_', ' ').capitalize() + (f': {told[1]}.' if told else '.')


def parsed(path):
    """The words, the file and the pairs of an edit."""
    words, file, pairs = [], '', []
    for line in lines_of(path):
        head, _, rest = line.partition(': ')
        if head == 'file':
            file = rest.strip()
        elif head == 'old':
            pairs.append([rest, ''])
        elif head == 'new':
            pairs[-1][1] = rest
        elif line.strip():
            words.append(line.strip())
    return words, file, pairs


def standing(path, line):
    """The declaration that the line stands in; of a constant also the functions that name it."""
    found = [one for one in declarations(path) if one.line <= line <= one.end]
    for one in list(found):
        if one.kind == 'const':
            found += [other for other in declarations(path) if other.kind == 'fn' and names(path, other, one.name)]
    return found


def names(path, one, word):
    return any(re.search(rf'\b{re.escape(word)}\b', line) for line in lines_of(path)[one.line - 1:one.end])


def edit_of(path):
    words, file, pairs = parsed(path)
    full = '/'.join(path.split('/')[:2]) + '/' + file
    if not os.path.exists(os.path.join(TOP, full)):
        raise Unresolved(f'{path}: no file {file}')
    lines = []
    for old, _ in pairs:
        if text_of(full).count(old) != 1:
            raise Unresolved(f'{path}: what it changes stands {text_of(full).count(old)} times in {file}')
        lines.append(text_of(full)[:text_of(full).index(old)].count('\n') + 1)
    changed = []
    for line in lines:
        changed += [one for one in standing(full, line) if one not in changed]
    return Edit(path, words, full, pairs, lines[0], changed)


def all_edits():
    """The edits of all crates, or else what is wrong with each that does not stand."""
    found, wrong = [], []
    for path in [path for crate in crates() for path in files(crate, 'must-fail', '.edit')]:
        try:
            found.append(edit_of(path))
        except Unresolved as error:
            wrong.append(str(error))
    if wrong:
        raise Unresolved('\nreading: '.join(wrong))
    return found


@functools.lru_cache(None)
def called(one):
    """The functions that a function's body names: of its file, of a module of its crate, of another crate's top."""
    found, body = set(), blanked('\n'.join(lines_of(one.path)[one.line:one.end]))
    for before, name in re.findall(r'(?:(\w+)::)?(\w+)\(', body):
        for path in [f'crates/{one.crate}/src/{before}.rt', f'crates/{before}/src/lib.rt'] if before else [one.path]:
            other = by_name(path).get(name) if os.path.exists(os.path.join(TOP, path)) else None
            if other and other.kind == 'fn' and other is not one:
                found.add(other)
    return found


def one_step(row):
    """What the functions of a row call, and what its definitions name."""
    found = set()
    for one in row.declarations:
        if one.kind == 'fn':
            found |= called(one)
        elif '/specs/' in one.path:
            found |= set(below(one)[0])
    return found


def touches(edit, declared):
    """Whether an edit changes one of these, or a function whose contract gives one of them."""
    return any(one in declared or declared & promised(one) for one in edit.changed)


def guarded(edits, row):
    """The edits that guard a row, the nearest first, each with why."""
    named, near = set(row.declarations), one_step(row)
    cited = [edit for edit in edits if any(reference.path == edit.path for reference in row.references)]
    inside = [edit for edit in edits if edit not in cited and touches(edit, named)]
    below_it = [edit for edit in edits if edit not in cited + inside and touches(edit, near)]
    return [*((edit, 'named in the row') for edit in cited), *((edit, 'in what the row names') for edit in inside),
            *((edit, 'one step below') for edit in below_it)]
