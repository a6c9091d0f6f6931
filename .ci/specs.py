"""The files of definitions, `crates/*/specs/*.antt`, as .ci/reading and .ci/definitions see them: each definition with
the comment above it, its lines, and the names that it speaks of."""
import re
from pathlib import Path

HEAD = re.compile(r'^( *)(?:pub )?(abbrev|unfoldable|record|data)(?: pub)? (\(?[^\s(:{]+)')
USE = re.compile(r'^(?:pub )?use Rattle\.(\w+)\.specs\.(.*)$')
WORD = re.compile(r"[^\s(){}\[\],;.\"]+|\.")
LITERAL = re.compile(r'"(?:[^"\\]|\\.)*"')


class Definition:
    """A definition: its name, the line at which it begins (from 1), its comment in one string, and its lines without
    comments."""

    def __init__(self, file, name, line, comment):
        self.file, self.name, self.line, self.comment = file, name, line, comment
        self.body, self.around = [], ''

    def head(self):
        """Its first line, with those that go on with a record's parameters."""
        lines = list(self.body)
        text = lines.pop(0)
        while re.match(r' *(pub )?record', text) and not text.endswith(' where') and lines:
            text += ' ' + lines.pop(0).strip()
        return text

    def clause(self, at):
        """The pattern of a clause that begins in a line, which may go on in the next ones; None where none begins."""
        text = self.body[at].strip()
        if not re.match(re.escape(self.name) + r'(?!\w)', text) or text.startswith(self.name + ' :'):
            return None
        while not re.search(r' =(?: |$)', text):
            at += 1
            if at == len(self.body) or self.body[at].strip().startswith(self.name + ' '):
                return None
            text += ' ' + self.body[at].strip()
        return re.match(re.escape(self.name) + r'(.*?) =(?: |$)', text).group(1)

    def kept(self, keep=lambda pattern: True):
        """Its lines but those of clauses that don't count. `keep` says it of a clause's pattern."""
        text, counts = [], True
        for at, line in enumerate(self.body):
            pattern = self.clause(at)
            if pattern is not None:
                counts = keep(pattern)
            if counts:
                text.append(line)
        return text

    def names(self, keep=lambda pattern: True):
        """The words that it speaks of, plain ones and those behind a module's name."""
        found = set()
        words = WORD.findall(LITERAL.sub(' ', '\n'.join([self.around] + self.kept(keep))))
        for at, word in enumerate(words):
            if word == '.':
                continue
            if at > 1 and words[at - 1] == '.':
                found.add((words[at - 2], word))
            else:
                found.add((None, word))
        return found

    def patterns(self):
        """The patterns of its clauses."""
        found = [self.clause(at) for at in range(len(self.body))]
        return [pattern for pattern in found if pattern is not None]


class Specs:
    """A file of definitions: what it says of itself, its definitions by name, and what its imports name."""

    def __init__(self, path):
        self.path = path
        self.crate = path.split('/')[1]
        self.module = Path(path).stem
        self.definitions, self.imports, self.modules = {}, {}, {}
        self.about = ''
        lines = Path(path).read_text().split('\n')
        at = 0
        about = []
        while at < len(lines) and lines[at].startswith('-- '):
            about.append(lines[at][3:])
            at += 1
        if at < len(lines) and not lines[at].startswith(('abbrev', 'unfoldable', 'pub', 'record', 'data')):
            self.about = ' '.join(about)
        comment, current, around = [], None, ''
        for number, line in enumerate(lines, 1):
            text = line.strip()
            if line.startswith('use ') or line.startswith('pub use '):
                self.take_import(line)
                comment, current = [], None
                continue
            head = HEAD.match(line)
            if head and (current is None or len(head.group(1)) <= current[0]):
                name = head.group(3).strip('◌(')
                here = Definition(self.path, name, number, ' '.join(comment))
                here.body.append(line)
                if not self.about and not self.definitions:
                    self.about = here.comment[:1].upper() + here.comment[1:]
                here.around = around if head.group(1) else ''
                self.definitions[name] = here
                current = (len(head.group(1)), here)
                comment = []
            elif text.startswith('--'):
                comment.append(text[2:].strip())
            elif not text:
                comment = []
                if current and current[0] == 0:
                    current = None
            elif line.startswith('module '):
                current, comment, around = None, [], line
            else:
                if current:
                    current[1].body.append(line)
                comment = []

    def take_import(self, line):
        found = USE.match(line)
        if not found:
            return
        crate, rest = found.groups()
        module, names = rest, None
        if '{' in rest:
            module, names = rest[:rest.index('{')].rstrip('.'), rest[rest.index('{') + 1:rest.rindex('}')]
        alias = None
        if names is None and ' as ' in module:
            module, alias = module.split(' as ')
        target = place(crate, module.strip())
        if names is None:
            if alias:
                self.modules[alias.strip()] = target
            return
        for name in names.split(','):
            name = name.strip()
            if ' as ' in name:
                name, alias = name.split(' as ')
                self.imports[alias.strip().strip('◌')] = (target, name.strip().strip('◌'))
            elif name:
                self.imports[name.strip('◌')] = (target, name.strip('◌'))


def place(crate, module):
    """Where a module of an import stands: a file of definitions, or the file of code that declares a type or a
    constant; None for what the kit brings."""
    parts = module.split('.')
    if parts[0] != 'declared':
        file = f'crates/{crate}/specs/{parts[0]}.antt'
        return ('specs', file) if Path(file).exists() else None
    path = [part for part in parts[1:] if part[0].islower()]
    types = [part for part in parts[1:] if part[0].isupper() and not part.startswith('The')]
    file = f'crates/{crate}/src/{"/".join(path) or "lib"}.rt'
    return ('code', file, types[0] if types else None) if Path(file).exists() else None


def load():
    """All files of definitions, by path."""
    return {str(path): Specs(str(path)) for path in sorted(Path('crates').glob('*/specs/*.antt')) if path.stem != 'Lib'}


def order():
    """The crates in the order of crates.txt, which is that of their layers."""
    return [line.split(':')[0] for line in Path('crates.txt').read_text().split('\n') if re.match(r'^\w+ *:', line)]


def modules(crate):
    """The files of definitions of a crate in the order of its specs/Lib.antt."""
    lib = Path(f'crates/{crate}/specs/Lib.antt')
    return re.findall(r'^pub mod (\w+)', lib.read_text(), re.M) if lib.exists() else []
