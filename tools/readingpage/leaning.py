"""What a statement leans on: the definitions that its text names, those that these name, and so on down to the kit's names.

A name is resolved by the file's `use` lines, as the prover does it: to a declaration of specs/, to a struct or enum of src/
(`specs.declared`), or to a name of the kit. A name that is none of these and is not bound where it stands is an error.
"""
import functools
import os
import re

from .sources import TOP, Unresolved, blanked, by_name, declarations, indent, text_of

TOKEN = re.compile(r'[(){};,]|[^\s(){};,]+')
USE = re.compile(r'^(?:ghost )?use\s+([^\s{;]+?)(?:\.\{([^}]*)\})?(?:\s+as\s+([^\s;]+))?;?\s*$', re.M)
NOTATION = {'→', '↔', '×', '=', ':', 'λ', '_', '.', 'record', 'where', 'let', 'in', 'Type', 'pub', 'abbrev', 'unfoldable', *'(){};,'}
PRELUDE = {'Unit', 'tt', '⊥', '¬', 'absurd', 'Dec', 'yes', 'no', 'Discrete', 'IsProp', 'IsSet', 'Path'}  # the kit's, with no `use` line
NUMBER = re.compile(r'(?:0x[0-9A-Fa-f]+|\d+)$')
PLAIN_TYPES = {'bool', 'u8', 'u16', 'u32', 'u64', 'usize', 'i8', 'i16', 'i32', 'i64', 'isize', 'f32', 'f64'}


def rust_file(crate, modules):
    """The file of a crate's module, or None."""
    for name in [modules[0]] if modules else ['lib', 'main']:
        path = f'crates/{crate}/src/{name}.rt'
        if os.path.exists(os.path.join(TOP, path)):
            return path
    return None


def rust_type(crate, parts, where):
    """The struct or enum that a path of modules and a name mean."""
    path = rust_file(crate, parts[:-1])
    one = by_name(path).get(parts[-1]) if path else None
    if one is None or one.name != parts[-1]:
        raise Unresolved(f'{where}: crate {crate} declares no {"::".join(parts)}')
    return one


def imported(module, name, where):
    """What a name of a module is: a declaration, or the kit's name as text."""
    own = re.match(r'Rattle\.(\w+)\.(specs|proofs)\.(\S+)$', module)
    if not own or not os.path.isdir(os.path.join(TOP, 'crates', own[1])):
        return f'{module}.{name}'
    crate, folder, rest = own.groups()
    if folder == 'specs' and rest.startswith('contracts.'):  # made by the check, of a type's own text
        return f'{module}.{name}'
    if rest.startswith('declared.'):
        parts = [p for p in rest.split('.')[1:] if p != 'TheVariants']
        one = rust_type(crate, parts, where)
        if name != one.name and name not in one.parts:
            raise Unresolved(f'{where}: {one.place} has no {name}')
        return one
    path = f'crates/{crate}/{folder}/{rest.replace(".", "/")}.antt'
    one = by_name(path).get(name) if os.path.exists(os.path.join(TOP, path)) else None
    if one is None:
        raise Unresolved(f'{where}: {path} does not declare {name}')
    return one


@functools.lru_cache(None)
def scope(path):
    """The names that a file of definitions can use, and its short names of modules."""
    names, modules = {one.name: one for one in declarations(path)}, {}
    for found in USE.finditer(text_of(path)):
        module, listed, other = found.groups()
        if listed is None:
            modules[other or module.split('.')[-1]] = module
            continue
        for item in filter(None, (i.strip() for i in listed.split(','))):
            name, _, new = item.partition(' as ')
            target = imported(module, name.strip(), path)
            for word in spelt((new or name).strip()):
                names[word] = target
    return names, modules


def promised(one):
    """The definitions that a function's contract gives as answers: the first of each right side, by the file's `ghost use` lines."""
    found, text = set(), '\n'.join(one.text) if one.kind == 'fn' else ''
    for right in text.partition('ensures')[2].split('≡')[1:]:
        targets = [scope(one.path)[0].get(word) for word in re.split(r'[\s(){};,.]+', right)]
        found |= set([t for t in targets if t and not isinstance(t, str) and '/specs/' in t.path][:1])
    return found


def spelt(name):
    """The words that a use of the name writes: of `◌+◌` the `+`."""
    return [p for p in name.split('◌') if p] if '◌' in name else [name]


def resolved(path, word, where):
    names, modules = scope(path)
    if word in names:
        return names[word]
    head, dot, rest = word.partition('.')
    if dot and head in modules:
        return imported(modules[head], rest, where)
    if word in PRELUDE:
        return f'Prim.{word}'
    raise Unresolved(f'{where}: {word} is not resolved: no `use` line, declaration or binder has it')


def tokens(one):
    """The words and brackets of a declaration: line within it, column, word; one list for the head and one for each clause."""
    lists, base = [[]], indent(one.text[0])
    for row, line in enumerate(one.text):
        words = [(row, m.start(), m[0]) for m in TOKEN.finditer(line.split('--')[0])]
        if row and words and words[0][1:] == (base, one.name):
            lists.append([])
        lists[-1] += words
    return lists


def bound_in_brackets(words):
    """Names before the colon of `(x y : ..)` and `{x : ..}`."""
    bound = set()
    for k, word in enumerate(words):
        if word in '({':
            j = k + 1
            while j < len(words) and words[j] not in NOTATION:
                j += 1
            if j < len(words) and words[j] == ':':
                bound |= set(words[k + 1:j])
    return bound


def bound_by_words(words):
    """Names of `λ x y.` and of `let x`."""
    bound = set()
    for k, word in enumerate(words):
        if word == 'let':
            bound.add(words[k + 1])
        while word == 'λ' and (k := k + 1) < len(words) and words[k] not in NOTATION:
            bound.add(words[k].rstrip('.'))
            if words[k].endswith('.'):
                break
    return bound


def bound_by_patterns(path, words):
    """The variables left of a clause's `=`: what is no constructor, the kit's or an enum's."""
    names, _ = scope(path)
    left = words[1:words.index('=')] if '=' in words else []
    plain = [w for w in left if w not in NOTATION and not NUMBER.match(w) and '.' not in w and w not in PRELUDE]
    return {w for w in plain if w not in names or not (isinstance(names[w], str) or names[w].kind == 'enum')}


def antt_uses(one):
    """The names in a definition's text: line within it, column, word, what it means; and the fields that it takes or gives."""
    uses, fields = [], set()
    for number, group in enumerate(tokens(one)):
        words = [w for _, _, w in group]
        # a bound name that is a definition's too counts as a use of it: rather one definition too many than one too few
        bound = ((bound_in_brackets(words) | bound_by_words(words)) - set(scope(one.path)[0])) | set(one.parts)
        if number:
            bound |= bound_by_patterns(one.path, words)
        for k, (row, column, word) in enumerate(group):
            # `r.x.y` is a name and the fields that are taken of it; after a bracket the fields stand alone
            word, taken = parted(one.path, word, bound)
            fields |= taken
            if k + 1 < len(words) and words[k + 1] == '=' and words[k - 1] in '{;':
                fields.add(word)
            elif word and word not in NOTATION and word != one.name and not NUMBER.match(word) and word not in bound:
                where = f'{one.path}:{one.line + row}'
                uses.append((row, column, word, resolved(one.path, word, where)))
    return uses, fields


def parted(path, word, bound):
    """A word without the fields that it takes, and these; a name of a module stays whole, and a binder loses its point."""
    word = word.rstrip('.') if len(word) > 1 else word
    head, dot, rest = word.partition('.')
    if not dot or head not in bound and head not in scope(path)[0] and head in scope(path)[1] or word in NOTATION:
        return word, set()
    return head, {part for part in rest.split('.') if not NUMBER.match(part)}


@functools.lru_cache(None)
def brought_in(path):
    """What the `use` items of an .rt file bring in: name, path."""
    found = {}
    for base, last, listed in re.findall(r'^(?:pub )?use ((?:\w+::)*)(?:(\w+)|\{([^}]*)\});', text_of(path), re.M):
        for item in filter(None, (i.strip() for i in (last or listed).split(','))):
            found[item.split('::')[-1]] = base + item
    return found


def rust_uses(one):
    """The types in a struct's or an enum's text."""
    uses, crate, brought = [], one.crate, brought_in(one.path)
    for row, line in enumerate(blanked('\n'.join(one.text)).split('\n')):
        spans = [m.span(1) for m in re.finditer(r'(?<!:):(?!:)\s*([^,{}]+)', line)]
        spans += [m.span() for m in re.finditer(r'(?<=\()[^()]*(?=\))', line)]
        for start, end in spans:
            for m in re.finditer(r'[A-Za-z_][\w:]*', line[start:end]):
                where = f'{one.path}:{one.line + row}'
                uses.append((row, start + m.start(), m[0], rust_meaning(one.path, crate, brought.get(m[0], m[0]), where)))
    return uses, set()


def rust_meaning(path, crate, word, where):
    if word in PLAIN_TYPES:
        return word
    parts = word.split('::')
    if len(parts) == 1:
        one = by_name(path).get(word)
        if one is None or one.name != word:
            raise Unresolved(f'{where}: {word} is not resolved')
        return one
    if parts[0] in ('crate', 'super', 'self'):
        return rust_type(crate, parts[1:], where)
    return rust_type(parts[0], parts[1:], where)


@functools.lru_cache(None)
def uses_of(one):
    return rust_uses(one) if one.path.endswith('.rt') else antt_uses(one)


@functools.lru_cache(None)
def below(one):
    """The declarations that a text names, each once, in their order; and the kit's names."""
    own, kit = [], []
    for _, _, _, target in uses_of(one)[0]:
        listed = kit if isinstance(target, str) else own
        if target not in listed and target is not one:
            listed.append(target)
    return own, kit


def reached(root):
    """Each declaration that the root leans on, itself first, breadth first, with the one under which it is opened."""
    under, row = {root: None}, [root]
    for one in row:
        for target in below(one)[0]:
            if target not in under:
                under[target] = one
                row.append(target)
    return under


def closure(root):
    """What is reached from the root, and the kit's names below; every field that is taken or given is one of a record reached."""
    row = reached(root)
    kit = {name for one in row for name in below(one)[1]}
    fields = {part for one in row for part in one.parts}
    for one in row:
        for field in sorted(uses_of(one)[1]):
            if field not in fields and not NUMBER.match(field):
                raise Unresolved(f'{one.place}: no record that {root.name} leans on has the field {field}')
    return row, kit
