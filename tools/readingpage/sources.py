"""What the sources declare: of each .antt and .rt file its declarations, with the comment above, the text to read and the place.

Of a definition or a type the text is all of it; of a law its statement, of a function its head with `requires` and `ensures`,
without proof and body. A record's field and an enum's case stand for the record or enum around them.
"""
import dataclasses
import functools
import os
import re

TOP = os.path.dirname(os.path.dirname(os.path.dirname(os.path.abspath(__file__))))
MARKS = r'(?:(?:pub|abbrev|unfoldable|opaque|ghost|instance)\s+)*'
ANTT_HEAD = re.compile(rf'(\s*){MARKS}(?:(record|data|module)\s+(\S+)|(\S+)\s+:(?=\s|$))')
ANTT_FIELD = re.compile(rf'\s+{MARKS}(\S+)\s+:(?=\s|$)')
RUST_HEAD = re.compile(r'\s*(?:pub\s+|pub\(crate\)\s+)?(?:extern\s+"C"\s+)?(fn|struct|enum|const|type|trait|mod)\s+(\w+)')
RUST_FIELD = re.compile(r'\s*(?:pub\s+)?(\w+)\s*:\s*([^,=]+?)\s*,?$')
PROMISE = re.compile(r'\b(?:ensures|requires)(?:\s+\w+)?\s*$')


class Unresolved(Exception):
    """A row, or a name of a definition, that can't be resolved: the page is not made."""


@dataclasses.dataclass(eq=False)
class Declaration:
    path: str
    name: str
    kind: str  # definition, record, law, fn, struct, enum, const, ..
    line: int  # of its head, from 1
    end: int  # the last line of all of it, proof or body too
    comment: list
    text: list
    around: list = dataclasses.field(default_factory=list)  # the heads of the modules that it stands in
    parts: dict = dataclasses.field(default_factory=dict)  # fields or cases: name, line

    @property
    def crate(self):
        return self.path.split('/')[1] if self.path.startswith('crates/') else ''

    @property
    def place(self):
        return f'{self.path}:{self.line}'

    @property
    def size(self):
        """Lines without comments and blank ones."""
        mark = '--' if self.path.endswith('.antt') else '//'
        return sum(1 for line in self.text if line.split(mark)[0].strip())


@functools.lru_cache(None)
def text_of(path):
    with open(os.path.join(TOP, path), encoding='utf-8', errors='replace') as f:
        return f.read()


def lines_of(path):
    return text_of(path).split('\n')


def indent(line):
    return len(line) - len(line.lstrip())


def comment_above(lines, k, mark):
    """The lines of comment directly above line k, without their mark."""
    while k and lines[k - 1].startswith('#['):
        k -= 1
    first = k
    while first and lines[first - 1].lstrip().startswith(mark):
        first -= 1
    return [line.strip()[len(mark):].strip() for line in lines[first:k]]


def opening(path):
    """The comment that a file opens with."""
    lines = lines_of(path)
    mark = next((m for m in ('--', '//') if lines[0].startswith(m)), None)
    if mark is None:
        return []
    end = next((k for k, line in enumerate(lines) if not line.startswith(mark)), len(lines))
    return [line[len(mark):].strip() for line in lines[:end]]


def antt_end(lines, k, name, record):
    """The line past the declaration that starts at line k, and the line where its clauses or its proof start."""
    base, end, body = indent(lines[k]), k + 1, None
    clause = re.compile(rf'(?:{re.escape(name)}(?=\s|$)|unfolding\b|[)}}\]]+;?$)')
    for j in range(k + 1, len(lines)):
        line = lines[j]
        if not line.strip() or line.lstrip().startswith('--'):
            continue
        deeper = indent(line) > base
        if not deeper and (record or not clause.match(line.lstrip())):
            break
        if not deeper and body is None:
            body = j
        end = j + 1
    return end, body if body is not None else end


def uncovered(path, found):
    """The first line of a file of definitions that stands in none of them, or None: a definition must not be shown in part."""
    inside = {line for one in found for line in range(one.line, one.end + 1)}
    for number, line in enumerate(lines_of(path), 1):
        if number not in inside and not re.match(r'\s*(?:$|--|use |infix|(?:pub )?mod )', line):
            return number
    return None


def antt_declarations(path):
    """The declarations of an .antt file; in a file of definitions every line belongs to one."""
    lines, found, modules, k = lines_of(path), [], [], 0
    law = '/specs/' not in path
    while k < len(lines):
        line = lines[k]
        head = None if line.startswith('use ') or line.lstrip().startswith('--') else ANTT_HEAD.match(line)
        if not head:
            k += 1
            continue
        modules = [m for m in modules if m[0] < indent(line)]
        if head[2] == 'module':
            end = k
            while not re.search(r'\bwhere\s*$', lines[end]):
                end += 1
            modules.append((indent(line), lines[k:end + 1]))
            k = end + 1
            continue
        name = head[3] or head[4]
        end, body = antt_end(lines, k, name, bool(head[2]))
        kind = head[2] or ('law' if law else 'definition')
        one = Declaration(path, name, kind, k + 1, end, comment_above(lines, k, '--'), lines[k:body if kind == 'law' else end],
                          [text for _, text in modules])
        if head[2]:
            one.parts = {m[1]: k + 2 + j for j, text in enumerate(lines[k + 1:end]) if (m := ANTT_FIELD.match(text))}
        found.append(one)
        k = end
    if not law and (number := uncovered(path, found)):
        raise Unresolved(f'{path}:{number}: the line belongs to no definition')
    return found


def closing(text, place):
    """Past the bracket that closes the one at place, in a text whose comments and literals are blanked."""
    depth = 0
    for k in range(place, len(text)):
        depth += (text[k] in '{[(') - (text[k] in '}])')
        if not depth:
            return k + 1
    raise Unresolved('a bracket is not closed: ' + text[place:place + 40])


def blanked(text):
    """The text with its comments and literals blanked out, so that brackets can be counted; every place stays."""
    return re.sub(r"//[^\n]*|\"(?:[^\"\\\n]|\\.)*\"|b?'(?:[^'\\\n]|\\.)'", lambda m: ' ' * len(m[0]), text)


def rust_ends(text, place, kind):
    """Where the head of an item ends, and where the item does."""
    while True:
        found = re.compile(r'[{;]').search(text, place)
        while found and found[0] == ';' and text.count('[', place, found.start()) > text.count(']', place, found.start()):
            found = re.compile(r'[{;]').search(text, found.end())
        if not found:
            return len(text), len(text)
        if found[0] == ';':
            return found.end(), found.end()
        past = closing(text, found.start())
        if kind != 'fn' or not PROMISE.search(text[place:found.start()]):
            return (found.start() if kind == 'fn' else past), past
        place = past


def rust_parts(kind, text, line):
    """Fields and cases by name; a field by its name with its type too."""
    parts = {}
    if kind == 'enum':
        inside = re.sub(r'#\[[^\]]*\]|\{[^{}]*\}|\([^()]*\)', lambda m: re.sub(r'[^\n]', ' ', m[0]), text[text.index('{') + 1:])
        before = text[:text.index('{') + 1].count('\n')
        parts = {m[1]: line + before + inside[:m.start(1)].count('\n') for m in re.finditer(r'(?:^|,)\s*(\w+)', inside)}
    for j, one in enumerate(text.split('\n')):
        if m := RUST_FIELD.match(one):
            parts.setdefault(m[1], line + j)
            parts[f'{m[1]}: {m[2]}'] = line + j
    return parts


def rust_declarations(path):
    """The items of an .rt file; what stands in a body is none."""
    text, lines, found, place = blanked(text_of(path)), lines_of(path), [], 0
    starts = [0]
    for line in lines:
        starts.append(starts[-1] + len(line) + 1)
    for k, line in enumerate(lines):
        head = RUST_HEAD.match(line)
        if not head or starts[k] < place:
            continue
        stop, past = rust_ends(text, starts[k] + head.end(), head[1])
        place = past
        last = text[:past].count('\n') + 1
        shown = text_of(path)[starts[k]:stop].rstrip().split('\n')
        one = Declaration(path, head[2], head[1], k + 1, last, comment_above(lines, k, '//'), shown)
        if head[1] in ('struct', 'enum') and '{' in text[starts[k]:past]:
            one.parts = rust_parts(head[1], text[starts[k]:past], k + 1)
        found.append(one)
    return found


@functools.lru_cache(None)
def declarations(path):
    """The declarations of a file, in their order."""
    if path.endswith('.antt'):
        return antt_declarations(path)
    return rust_declarations(path) if path.endswith('.rt') else []


@functools.lru_cache(None)
def by_name(path):
    """Each name that a file declares, with its declaration; a field or a case with the one around it."""
    table = {}
    for one in declarations(path):
        table.setdefault(one.name, one)
    for one in declarations(path):
        for part in one.parts:
            table.setdefault(part, one)
    return table


def crates():
    """The crates in the order of crates.txt, lowest first."""
    heads = re.findall(r'^(\w+)(?: +\w+(?:=\S+)?)*(?= *:)', text_of('crates.txt'), re.M)
    return [c for c in heads if os.path.isdir(os.path.join(TOP, 'crates', c))]


@functools.lru_cache(None)
def left_out():
    """The crates that PORTING-LEFT.md names and that are not there: of these, for now, nothing is asked."""
    if not os.path.exists(os.path.join(TOP, 'PORTING-LEFT.md')):
        return set()
    return {c for c in re.findall(r'\w+', text_of('PORTING-LEFT.md')) if not os.path.isdir(os.path.join(TOP, 'crates', c))}


def files(crate, folder, ending):
    """The files of a crate's folder, and of the folders in it, from the top."""
    found = []
    for base, _, names in os.walk(os.path.join(TOP, 'crates', crate, folder)):
        found += [os.path.relpath(os.path.join(base, name), TOP) for name in names if name.endswith(ending)]
    return sorted(found)
