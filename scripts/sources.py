"""Reads the repository's sources by name: the declarations of crates/*/specs and crates/*/proofs, the functions of crates/*/src with
their contracts, and what a name in one of them stands for, through the file's own `use` lines. To be imported by the scripts beside it.

It reads the text, not what the prover makes of it. So a name that a λ, a let or a signature binds and that is also in scope counts as a
use of what is in scope: too much is reached then, never too little. Of the pattern variables of a clause this is known exactly."""

import re
from pathlib import Path

ROOT = Path(__file__).resolve().parent.parent
NAME = r'«[^»]*»|[^\s(){}.;,@"«»]+'
TOKEN = re.compile(NAME + r'|[(){}.;,@"]')
PUNCTUATION = set('(){}.;,@"')
MARKS = {'unfoldable', 'abbrev', 'pub', 'axiom', 'data', 'record'}
# words of the language, and what every file has without a `use` line
WORDS = MARKS | set('= : → λ let in where module do elim Type × _ ⊔ ↔ ∀ requires ensures'.split())
# the head of a clause, with its name if it has one
CLAUSE = re.compile(r'\b(?:requires|ensures)(?: \w+)? \{')


class SourceError(Exception):
    """Something that is not found, or is not as expected; the text says what and where."""


class Declaration:
    """One declaration: its name, where it stands (first and last line, from 1), and its text in pieces."""

    def __init__(self, module, name, line, around):
        self.module, self.name, self.line, self.last = module, name, line, line
        self.around = around  # the lines of the `module .. where` around it
        self.signature, self.opened, self.clauses = [], [], []
        self.parts = {}  # constructors of a data type, fields of a record: name and line
        self.is_data = self.is_record = False

    def add(self, number, text, indent):
        """One more line of it."""
        body = text[indent:]
        if body.startswith(' ') and self.clauses:
            self.clauses[-1].append(text)
        elif body.startswith(' '):
            (self.opened or self.signature).append(text)
        elif words(body)[:1] == ['unfolding']:
            self.opened.append(text)
        else:
            self.clauses.append([text])
        self.last = number

    def is_definition(self):
        return self.is_data or self.is_record or bool({'unfoldable', 'abbrev'} & set(words(self.signature[0])[:2]))

    def lines(self):
        """All lines, without comments and empty ones."""
        return self.signature + self.opened + [line for clause in self.clauses for line in clause]

    def place(self):
        return f'{self.module.path}:{self.line}'


class Module:
    """One .antt file: its declarations, constructors, and names from elsewhere."""

    def __init__(self, path):
        self.path = path
        self.declarations = {}  # by name, the first of each
        self.in_order = []
        self.constructors = {}
        self.imported = {}  # local name -> (module, name)
        self.aliases = {}  # local name -> module
        self.text = (ROOT / path).read_text()
        self.read(self.text.split('\n'))

    def read(self, lines):
        current, around, number = None, [], 0
        while number < len(lines):
            text = without_comment(lines[number])
            number += 1
            if not text.strip():
                continue
            indent = len(text) - len(text.lstrip(' '))
            while around and indent < around[-1][0]:
                around.pop()
                current = None
            base = around[-1][0] if around else 0
            if indent > base:
                if current is None:
                    raise SourceError(f'{self.path}:{number}: a line that belongs to nothing')
                self.continued(current, number, text, base)
                continue
            first = words(text)
            if first[0] == 'use' or first[:2] == ['pub', 'use']:
                self.use(text, number)
            elif first[0] in ('infix', 'infixl', 'infixr', 'mod', 'open') or first[:2] == ['pub', 'mod']:
                pass
            elif 'ruleset' in first[:2]:
                current = Declaration(self, first[first.index('ruleset') + 1], number, [])
                current.signature.append(text)
            elif first[0] == 'module':
                while words(text)[-1] != 'where':
                    text += '\n' + without_comment(lines[number])
                    number += 1
                around.append((base + 2, text))
                current = None
            else:
                current = self.declared(current, first, number, text, base, [a for _, a in around])

    def declared(self, current, first, number, text, base, around):
        """A signature, or one more line of the declaration before it."""
        rest = [w for w in first if w not in MARKS]
        data, record = 'data' in first[:3], 'record' in first[:3] and first[0] in MARKS
        levels = rest.index('}') + 1 if rest[1:2] == ['{'] and '}' in rest else 1
        if not (data or record or (rest[levels : levels + 1] == [':'] and rest[0] != '=')):
            if current is None:
                raise SourceError(f'{self.path}:{number}: a clause of nothing')
            current.add(number, text, base)
            return current
        found = Declaration(self, rest[0], number, around)
        found.is_data, found.is_record = data, record
        found.signature.append(text)
        self.declarations.setdefault(found.name, found)
        self.in_order.append(found)
        return found

    def continued(self, current, number, text, base):
        """A line further in: a constructor, a field, or a line that goes on."""
        if current.is_data or current.is_record:
            for name in names_before_colon(text):
                current.parts[name] = number
                if current.is_data:
                    self.constructors[name] = current
        current.add(number, text, base)

    def use(self, text, number):
        read_use(text.strip().removeprefix('pub ').removeprefix('use '), self.imported, self.aliases, f'{self.path}:{number}')


class Function:
    """One function of a .rt file: its head with the contract, and where it stands."""

    def __init__(self, source, name, line):
        self.source, self.name, self.line, self.head = source, name, line, []

    def place(self):
        return f'{self.source.path}:{self.line}'

    def exported(self):
        return 'extern "C"' in self.head[0]

    def contract(self):
        """The text of `requires` and `ensures`."""
        text = '\n'.join(self.head)
        starts = [text.find(w) for w in ('\n    requires', '\n    ensures') if w in text]
        return text[min(starts) :] if starts else ''


class Source:
    """One .rt file: its functions, and the names that its contracts take from elsewhere."""

    def __init__(self, path):
        self.path = path
        self.functions = {}
        self.types = {}
        self.imported = {}
        self.aliases = {}
        self.text = (ROOT / path).read_text()
        self.read(self.text.split('\n'))

    def read(self, lines):
        open_function = None
        for number, text in enumerate(lines, 1):
            if text.startswith('ghost use '):
                read_use(text.removeprefix('ghost use ').rstrip(';'), self.imported, self.aliases, f'{self.path}:{number}')
            found = re.match(r'(?:pub )?(?:unsafe )?(?:extern "C" )?fn (\w+)', text)
            kind = re.match(r'pub (?:enum|struct) (\w+)', text)
            if kind:
                self.types[kind.group(1)] = number
            if found:
                open_function = Function(self, found.group(1), number)
                self.functions.setdefault(open_function.name, open_function)
            if open_function and (text == '{' or text.startswith('}')):
                open_function = None
            if open_function:
                open_function.head.append(text)


def without_comment(line):
    found = re.search(r'(^|\s)--', line)
    return line[: found.start()].rstrip() if found else line.rstrip()


def words(text):
    return TOKEN.findall(text)


def names_before_colon(text):
    names = []
    for word in words(text):
        if word == ':':
            return names
        if word != 'pub':
            names.append(word)
    return []


def read_use(text, imported, aliases, place):
    """`a.b.{c, d as e}`, `a.b as c`, `a.b`"""
    found = re.fullmatch(r'([^{}\s]+)\.\{(.*)\}', text)
    if found:
        for item in found.group(2).split(','):
            pair = item.split(' as ')
            imported[pair[-1].strip()] = (found.group(1), pair[0].strip())
        return
    found = re.fullmatch(r'(\S+)(?: as (\S+))?', text)
    if not found:
        raise SourceError(f'{place}: a use line that is not understood: {text}')
    aliases[found.group(2) or found.group(1).split('.')[-1]] = found.group(1)


def module_path(name):
    """The file below crates/ that a module's name stands for, or None for one of the kit or one made from code."""
    found = re.fullmatch(r'Rattle\.(\w+)\.(specs|proofs)\.(.+)', name)
    if not found or found.group(3).startswith('declared.') or not (ROOT / 'crates' / found.group(1)).is_dir():
        return None
    return f'crates/{found.group(1)}/{found.group(2)}/{found.group(3).replace(".", "/")}.antt'


class Sources:
    """Every module and source of the repository."""

    def __init__(self):
        self.modules = {p: Module(p) for p in files('specs/**/*.antt') + files('proofs/**/*.antt')}
        self.sources = {p: Source(p) for p in files('src/**/*.rt')}

    def in_module(self, module, name):
        """A name of a module: a declaration of the repository, or a text for what is elsewhere."""
        path = module_path(module)
        if path is None:
            return f'{module}.{name}'
        if path not in self.modules:
            raise SourceError(f'there is no file {path}')
        where = self.modules[path]
        found = where.declarations.get(name) or where.constructors.get(name)
        if found is None:
            raise SourceError(f'{path} has no {name}')
        return found

    def named(self, name):
        """The declaration that `File.name` stands for, in whichever crate the file is; of `File.record.field` the record. None where there is
        none; two are an error."""
        parts = name.split('.')
        for length in (len(parts) - 1, len(parts) - 2):
            ending = f'/{"/".join(parts[:length])}.antt'
            found = [m.declarations[parts[length]] for p, m in self.modules.items() if p.endswith(ending) and parts[length] in m.declarations]
            if len(found) > 1:
                raise SourceError(f'{name} stands in {" and in ".join(one.module.path for one in found)}')
            if found and (length == len(parts) - 1 or parts[-1] in found[0].parts):
                return found[0]
        return None

    def specified(self, name):
        """The one definition of this name in the specs of the crates."""
        found = [m.declarations[name] for p, m in self.modules.items() if '/specs/' in p and name in m.declarations]
        if len(found) != 1:
            raise SourceError(f'{name}: {len(found)} definitions of this name in crates/*/specs, not one')
        return found[0]

    def scope(self, where):
        """What each name means in a module or source, operators by each of their parts too."""
        table = {}
        for name, (module, original) in where.imported.items():
            table[name] = (module, original)
        for own in (getattr(where, 'constructors', {}), getattr(where, 'declarations', {})):
            table.update(own)
        for name in list(table):
            if '◌' in name:
                for part in filter(None, name.split('◌')):
                    table.setdefault(part, table[name])
        return table

    def meaning(self, entry):
        return self.in_module(*entry) if isinstance(entry, tuple) else entry

    def uses(self, declaration):
        """What a declaration names, and the names that nothing explains."""
        where = declaration.module
        scope = self.scope(where)
        used, strange = set(), set()
        names = binders(declaration.around)
        labels = set(declaration.parts) if declaration.is_record else set()
        texts = [('\n'.join(declaration.around + declaration.signature), set())]
        for clause in declaration.clauses:
            text = '\n'.join(clause)
            left, right = split_clause(text)
            variables = {w for w in words(left) if w not in PUNCTUATION and not self.is_constructor(scope, w)}
            texts.append((left, variables))
            texts.append((right, variables))
        names |= binders([text for text, _ in texts])
        for text, variables in texts:
            self.collect(text, where, scope, variables, names | labels | {declaration.name}, used, strange)
        used.discard(declaration)
        return used, strange

    def is_constructor(self, scope, word):
        """Whether a word of a pattern is a constructor, and so binds nothing."""
        if word not in scope:
            return False
        entry = scope[word]
        if not isinstance(entry, tuple):
            return word in entry.parts
        found = self.meaning(entry)
        return isinstance(found, str) or entry[1] in found.parts

    def collect(self, text, where, scope, variables, binding, used, strange):
        """Adds what the names of a text mean."""
        for name, qualifier in mentioned(text):
            if qualifier is not None:
                if qualifier in where.aliases:
                    used.add(self.in_module(where.aliases[qualifier], name))
            elif name in variables or name in WORDS or re.fullmatch(r'[0-9_]+', name):
                continue
            elif name in scope:
                used.add(self.meaning(scope[name]))
            elif name not in binding and name not in where.aliases:
                strange.add(name)

    def said_by(self, theorem):
        """The definitions that the statement of a theorem reaches."""
        text, used = '\n'.join(theorem.around + theorem.signature), set()
        self.collect(text, theorem.module, self.scope(theorem.module), binders([text]) | {theorem.name}, set(), used, set())
        found = self.reached(one for one in used if isinstance(one, Declaration) and one.is_definition())[0]
        return {one for one in found if isinstance(one, Declaration) and one.is_definition()}

    def theorem(self, name):
        """The one theorem of this name in the proofs of the crates, or None."""
        found = [m.declarations[name] for p, m in self.modules.items() if '/proofs/' in p and name in m.declarations]
        found = [one for one in found if not one.is_definition()]
        if len(found) > 1:
            raise SourceError(f'{name} is a theorem in {" and in ".join(one.module.path for one in found)}')
        return found[0] if found else None

    def contract_uses(self, function):
        used, strange = set(), set()
        scope = self.scope(function.source)
        parameters = set(re.findall(r'(\w+):', '\n'.join(function.head)))
        text = re.sub(r'[«»]', '', function.contract())
        self.collect(CLAUSE.sub('{', text), function.source, scope, parameters | {'result'}, binders([text]), used, strange)
        return used, strange

    def reached(self, roots):
        """Everything that the roots name, directly or through other declarations; and what nothing explains."""
        found, strange, waiting = set(), set(), list(roots)
        while waiting:
            one = waiting.pop()
            if one in found:
                continue
            found.add(one)
            if isinstance(one, Declaration):
                more, unknown = self.uses(one)
                waiting.extend(more)
                strange |= {(name, one.place()) for name in unknown}
        return found, strange


def files(pattern):
    return sorted(str(p.relative_to(ROOT)) for p in ROOT.glob('crates/*/' + pattern))


def split_clause(text):
    """The left and the right side of a clause."""
    found = re.search(r'(?:^|(?<=\s))=(?=\s)', text)
    return (text[: found.start()], text[found.end() :]) if found else ('', text)


def mentioned(text):
    """Each name of a text with the word before its dot, if any. Fields after a dot and the labels of a record are left out."""
    tokens = [(m.group(), m.start(), m.end()) for m in TOKEN.finditer(text)]
    found = []
    for i, (word, start, end) in enumerate(tokens):
        if word in PUNCTUATION:
            continue
        before = tokens[i - 1] if i else ('', -1, -1)
        after = tokens[i + 1] if i + 1 < len(tokens) else ('', -1, -1)
        if before[0] == '.' and before[2] == start:
            owner = tokens[i - 2] if i > 1 else ('', -1, -1)
            if owner[2] == before[1] and owner[0] not in PUNCTUATION:
                found.append((word, owner[0]))
            continue
        if after[0] == '=' and before[0] in ('{', ';'):
            continue
        found.append((word, None))
    return found


def binders(texts):
    """The names that a λ, a let or a typed binder gives."""
    names = set()
    for text in texts:
        for found in re.findall(r'λ ([^.]*)\.', text):
            names.update(words(found))
        names.update(re.findall(r'\blet ([^\s:=]+)', text))
        for found in re.findall(r'[({]([^(){}:=]*) : ', text):
            names.update(words(found))
        for found in re.findall(r'[^\s(]+ \{([^{}:=]*)\} :', text):
            names.update(words(found))
    return names
