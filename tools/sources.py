"""Reads the sources for tools/statements and tools/house: what contracts cite, the declarations of specs/ and of
proofs/Theorems.antt, and what each of them rests on. A declaration is named by (crate, module, name)."""
import pathlib
import re

CRATES = pathlib.Path('crates')
WORD = r"[^\s(){}\[\],.;]+"
SIGNATURE = re.compile(r'^((?:(?:unfoldable|abbrev|pub) )*)(' + WORD + r')(?: \{[^}]*\})? :(?: |$)')
TYPE = re.compile(r'^(?:pub )?(?:record|data) (' + WORD + ')')
USE = re.compile(r'^(?:ghost |(?:unfoldable )?pub )?use Rattle\.(\w+)\.(specs|proofs)\.([\w-]+)(?:\.\{([^}]*)\}| as (\w+));?$', re.M)


def listed():
    """crates.txt: each crate with the crates it stands on."""
    rows = [line.split('#')[0].partition(':') for line in pathlib.Path('crates.txt').read_text().splitlines()]
    return {head.split()[0]: under.split() for head, colon, under in rows if colon}


def source(crate):
    return '\n'.join(path.read_text() for path in sorted((CRATES / crate / 'src').glob('*.rt')))


def words(text):
    """What a text names: its words, of `alias.name` the whole and its head. A field, as in `x.field` or `(f x).field`, is none."""
    text = re.sub(r'(?:^|(?<=\s))--.*', ' ', text, flags=re.M)
    text = re.sub(r'(?<=[)\]}])\.[^\s(){}\[\],;]+', ' ', text)
    found = {word.strip('.') for word in re.findall(r"[^\s(){}\[\],;]+", text)}
    return text, found | {word.partition('.')[0] for word in found}


def says(said, name):
    text, all_words = said
    if name in all_words or name.strip('◌') in all_words:
        return True
    return '◌' in name.strip('◌') and all(part in text for part in name.split('◌') if part)


def brought(text):
    """The names that `use` lines bring, and the modules under an alias."""
    names, aliases = {}, {}
    for crate, side, module, inside, alias in USE.findall(text):
        if alias:
            aliases[alias] = (crate, module)
        else:
            for one in inside.split(','):
                old, _, new = one.strip().partition(' as ')
                names[new.strip() or old.strip()] = (crate, module, old.strip())
    return names, aliases


def cited(said, names, aliases):
    out = {place for name, place in names.items() if says(said, name)}
    for alias, (crate, module) in aliases.items():
        out |= {(crate, module, word.split('.')[1]) for word in said[1] if word.startswith(alias + '.')}
    return out


class File:
    """A file of specs/ or proofs/: its declarations, each with the comment above it."""

    def __init__(self, path):
        self.path, self.crate, self.module = path, path.parts[1], path.stem
        text = path.read_text()
        self.names, self.aliases = brought(text)
        self.passed = brought('\n'.join(re.findall(r'^(?:unfoldable )?pub use .*$', text, re.M)))[0]
        self.items = []
        for block in self.blocks(text.split('\n')):
            found = SIGNATURE.match(block['head']) or TYPE.match(block['head'])
            block['name'] = found.group(found.lastindex) if found else None
            block['law'] = bool(SIGNATURE.match(block['head'])) and not re.match(r'(unfoldable|abbrev)', block['head'])
            block['public'] = bool(re.match(r'((unfoldable|abbrev) )*pub ', block['head']))
            self.items.append(block)
        self.where = {item['name']: item for item in self.items if item['name']}

    @staticmethod
    def blocks(lines):
        """The declarations at the left margin: a head, its comment, its lines."""
        current, comment = None, []
        for line in lines:
            starts = SIGNATURE.match(line) or TYPE.match(line) or re.match(r'(module|infix)', line)
            if line.startswith(('use ', 'pub use ', 'unfoldable pub use ', 'mod ', 'pub mod ')):
                comment = []
            elif line.startswith('--'):
                if current and not comment:
                    yield current
                    current = None
                comment.append(line)
            elif starts:
                if current:
                    yield current
                current, comment = {'head': line, 'comment': comment, 'lines': [line]}, []
            elif not line.strip():
                if current:
                    current['lines'].append(line)
                else:
                    comment = []
            elif current:
                current['lines'] += comment + [line]
                comment = []
        if current:
            yield current

    def text(self, item):
        return '\n'.join(item['comment'] + item['lines']).rstrip()

    def cites(self, text):
        said = words(text)
        own = {(self.crate, self.module, name) for name in self.where if says(said, name)}
        return own | cited(said, self.names, self.aliases)


def specs():
    paths = sorted(CRATES.glob('*/specs/*.antt'))
    return {(path.parts[1], path.stem): File(path) for path in paths if path.stem != 'Lib'}


def theorems():
    return {path.parts[1]: File(path) for path in sorted(CRATES.glob('*/proofs/Theorems.antt'))}


def contract_cites(text, contract):
    """What a contract of this source names."""
    return cited(words(contract), *brought(text))


def closure(files, todo):
    """The declarations of specs/ that these rest on."""
    seen, todo = set(), list(todo)
    while todo:
        crate, module, name = todo.pop()
        file = files.get((crate, module))
        if file and name in file.passed:  # it stands elsewhere, and this file passes it on
            todo.append(file.passed[name])
            continue
        if not file or name not in file.where or (crate, module, name) in seen:
            continue
        seen.add((crate, module, name))
        todo += file.cites('\n'.join(file.where[name]['lines']))
    return seen
