"""What the proofs cost: lines by crate, counted from the sources, and seconds of the check by crate, from a log (tools/timed).

Lines are counted without comments, blank ones and `use` lines. Code is src/ (contracts too), definitions are specs/; of proofs/ the
statements of laws are laws, and all else is proof, so all of a function's own proof file.
"""
import dataclasses
import os
import platform
import re
import time

from .sources import TOP, crates, declarations, files, lines_of, text_of

TIMES = 'docs/times.txt'
NO_LINE = re.compile(r'\s*(?:$|--|//|(?:ghost |pub )?use\b|(?:pub )?mod \w+;?$)')


@dataclasses.dataclass
class Cost:
    crate: str
    code: int
    definitions: int
    laws: int
    proofs: int
    seconds: int = None


def counted(lines):
    """Lines that count; of a `use` over several lines none."""
    number, used = 0, False
    for line in lines:
        used = used or re.match(r'(?:ghost )?use\b[^}]*$', line) is not None and '{' in line
        number += not used and not NO_LINE.match(line)
        used = used and '}' not in line
    return number


def cost_of(crate):
    code = sum(counted(lines_of(path)) for path in files(crate, 'src', '.rt'))
    definitions = sum(counted(lines_of(path)) for path in files(crate, 'specs', '.antt'))
    proofs = files(crate, 'proofs', '.antt')
    laws = sum(one.size for path in proofs if path.count('/') == 3 for one in declarations(path))
    return Cost(crate, code, definitions, laws, sum(counted(lines_of(path)) for path in proofs) - laws)


def costs(seconds):
    table = [cost_of(crate) for crate in crates()]
    for one in table:
        one.seconds = seconds.get(one.crate)
    return table


def times_of(log):
    """Seconds by crate: what tools/timed says of each crate that rt proved, or an older kit's rt itself."""
    found = {}
    for crate, seconds in re.findall(r'^rt: (\w+) proved \((\d+) s', log, re.M):
        found[crate] = found.get(crate, 0) + int(seconds)
    return found


def kept():
    """What docs/times.txt says: the day, the machine and the kit, the last line above its list, and seconds by crate."""
    if not os.path.exists(os.path.join(TOP, TIMES)):
        return '', {}
    words = [line[1:].strip() for line in lines_of(TIMES) if line.startswith('#')]
    return words[-1], {crate: int(seconds) for crate, seconds in re.findall(r'^(\w+) (\d+)$', text_of(TIMES), re.M)}


def read_log(path):
    """The times of a log, with when it was written, on what machine this runs, and with which kit."""
    with open(path, encoding='utf-8', errors='replace') as f:
        found = times_of(f.read())
    day = time.strftime('%d %B %Y', time.gmtime(os.path.getmtime(path))).lstrip('0')
    return f'{day}, {os.cpu_count()}-core {platform.machine()}, {text_of(".ci/kit").split()[0]}; one check after another', found


def latest(log=None):
    """The times of a log; without one those that are kept."""
    return read_log(log) if log else kept()


def keep(path):
    """Writes docs/times.txt from a log; how many crates it has."""
    words, found = read_log(path)
    with open(os.path.join(TOP, TIMES), 'w', encoding='utf-8') as f:
        f.write('# Seconds that the check of each crate took, in one run. Written by tools/reading --times LOG.\n')
        f.write(f'# {words}\n')
        f.writelines(f'{crate} {found[crate]}\n' for crate in crates() if crate in found)
    return len(found)
