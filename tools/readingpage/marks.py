"""Text and code as HTML."""
import re
from html import escape

LONG = 16  # a text of more lines is folded away


def prose(text):
    """Words with their `code`."""
    pieces = re.split(r'`([^`]+)`', text)
    return ''.join(f'<code>{escape(p)}</code>' if k % 2 else escape(p) for k, p in enumerate(pieces))


def paragraphs(lines):
    blocks = re.split(r'\n\s*\n', '\n'.join(lines).strip())
    return ''.join(f'<p>{prose(" ".join(block.split()))}</p>' for block in blocks if block.strip())


def place(one):
    return f'<span class="place">{escape(one.place)}</span>'


def code_line(line, mark, links):
    """A line of code: its comment marked, and its names linked; links are columns, words and where they lead."""
    code, _, rest = line.partition(mark)
    out, at = [], 0
    for column, word, target in links:
        out.append(f'{escape(code[at:column])}<a href="#{target}">{escape(word)}</a>')
        at = column + len(word)
    out.append(escape(code[at:]))
    if len(code) < len(line):
        out.append(f'<i>{escape(mark + rest)}</i>')
    return f'<span>{"".join(out) or " "}</span>'


def code(lines, path, links=None):
    """A block of code; links by line."""
    mark = '--' if path.endswith('.antt') else '//'
    least = min((len(line) - len(line.lstrip()) for line in lines if line.strip()), default=0)
    shown = []
    for row, line in enumerate(lines):
        there = [(column - least, word, target) for column, word, target in (links or {}).get(row, [])]
        shown.append(code_line(line[least:], mark, there))
    return f'<pre><code>{"".join(shown)}</code></pre>'


def folded(lines, path, links):
    """A block of code, folded away where it is long."""
    block = code(lines, path, links)
    return block if len(lines) <= LONG else f'<details class="long"><summary>{len(lines)} lines</summary>{block}</details>'


def comment(lines):
    return f'<p class="say">{prose(" ".join(lines))}</p>' if lines else ''


def shown(one, name, said, text, links, target):
    """A declaration as a row shows it: name, place, comment and text; the name leads to the target, where there is one."""
    line = one.parts.get(name, one.line) if name != one.name else one.line
    words = escape(name) if name == one.name else f'{escape(name)}</b> of <b>{escape(one.name)}'
    words = f'<a href="#{target}"><b>{words}</b></a>' if target else f'<b>{words}</b>'
    at = f'<span class="place">{escape(one.path)}:{line}</span>'
    return f'<div class="decl"><p class="head">{words} {at}</p>{comment(said)}{folded(text, one.path, links)}</div>'


def plural(number, word, many=None):
    return f'{number:,} {word if number == 1 else many or word + "s"}'
