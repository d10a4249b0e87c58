"""The rows of docs/READING.md, and what each names: files, and declarations in them."""
import dataclasses
import os
import re

from .sources import TOP, by_name, left_out, text_of

READING = 'docs/READING.md'


@dataclasses.dataclass
class Reference:
    """A file or folder that a cell names, and the declarations of it that the cell gives after it, by the name that it gives."""
    path: str
    names: list
    found: list = dataclasses.field(default_factory=list)


@dataclasses.dataclass
class Row:
    number: int  # its line in READING.md
    cells: list  # sentence, definition, carried by: as written
    parts: list = dataclasses.field(default_factory=list)  # of the last two cells: texts and References in their order

    @property
    def references(self):
        return [part for cell in self.parts for part in cell if isinstance(part, Reference)]

    @property
    def declarations(self):
        return [one for reference in self.references for one in reference.found]


@dataclasses.dataclass
class Section:
    title: str
    prose: list
    rows: list


def declares(path, name):
    """Whether the file declares the name; in a file that is neither .antt nor .rt the name has to stand as a word."""
    if path.endswith(('.antt', '.rt')):
        return name in by_name(path)
    return re.search(rf'(?<![\w-]){re.escape(name)}(?![\w-])', text_of(path)) is not None


def parts_of(cell, where, wrong):
    """The cell as texts and references. What is not there goes to the list of wrong names."""
    parts, reference = [], None
    for text, word in re.findall(r'([^`]*)(?:`([^`]+)`)?', cell):
        if text.strip(' ;,'):
            parts.append(text.strip(' ;'))
        if not word:
            continue
        if '/' in word:
            reference = Reference(word, [])
            if word.startswith('crates/') and word.split('/')[1] in left_out():
                parts.append(f'{word}: PORTING-LEFT.md')
                continue
            parts.append(reference)
            if not os.path.exists(os.path.join(TOP, word)):
                wrong.append(f'{where}: no file {word}')
        elif reference is None:
            wrong.append(f'{where}: the name {word} has no file before it')
        elif os.path.isfile(os.path.join(TOP, reference.path)):
            reference.names.append(word)
            if not declares(reference.path, word):
                wrong.append(f'{where}: {reference.path} does not declare {word}')
            elif (one := by_name(reference.path).get(word)):
                reference.found.append(one)
    return parts


def row_of(line, number, wrong):
    row, where = Row(number, [c.strip() for c in line.strip().strip('|').split('|')]), f'{READING}:{number}'
    if len(row.cells) != 3:
        wrong.append(f'{where}: {len(row.cells)} cells, not 3')
    else:
        row.parts = [parts_of(cell, where, wrong) for cell in row.cells[1:]]
    return row


def read():
    """The sections with their rows, and what is wrong with them."""
    sections, wrong = [], []
    for number, line in enumerate(text_of(READING).split('\n'), 1):
        if line.startswith('#'):
            sections.append(Section(line.lstrip('# '), [], []))
        elif not line.startswith('|'):
            sections[-1].prose.append(line)
        elif not line.startswith('|---') and '| Definition |' not in line:
            sections[-1].rows.append(row_of(line, number, wrong))
    return sections, wrong
