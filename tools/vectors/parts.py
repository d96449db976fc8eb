"""The parts of a replay program's stdin and stdout. A part of stdin starts with a line `# Part NAME: ..` and ends where the next one starts;
each of its lines that is no comment is a case and has one line of stdout. oracle/sample writes its parts by the same rule."""
import os
import sys


def read(folder):
    """Each part: its name, its text, and what its cases print."""
    parts = []
    told = open(os.path.join(folder, 'stdout')).read().splitlines(keepends=True)
    for line in open(os.path.join(folder, 'stdin')).read().splitlines(keepends=True):
        if line.startswith('# Part '):
            parts.append([line[7:line.index(':')], '', ''])
        parts[-1][1] += line
        if not line.startswith('#'):
            parts[-1][2] += told.pop(0)
    assert not told
    return parts


def put(folder, name, head, cases, told, first=0):
    """Puts a part in the place of the old one, or last; with --check among the program's words it says whether it is the same. The kinds
    are counted from `first` on in the program."""
    numbered = ['%X %s' % (int(line.split()[0], 16) + first, ' '.join(line.split()[1:])) for line in cases]
    made = [name, '# Part %s: %s' % (name, head) + ''.join(line.rstrip() + '\n' for line in numbered), ''.join(line + '\n' for line in told)]
    old = read(folder)
    new = [made if part[0] == name else part for part in old]
    if made not in new:
        new.append(made)
    if '--check' in sys.argv[1:]:
        if old != new:
            sys.exit('%s: part %s differs' % (folder, name))
    else:
        for file, at in (('stdin', 1), ('stdout', 2)):
            open(os.path.join(folder, file), 'w').write(''.join(part[at] for part in new))
    print('%s: %d cases, %d and %d bytes' % (name, len(cases), len(made[1]), len(made[2])))
