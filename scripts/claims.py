"""Makes docs/claims.md and docs/statements.md from docs/claims.list and the sources: each sentence with its plain answer and links, and the
statements that carry it, cut from where they stand."""

import re

from sources import ROOT, SourceError, words

CLAIMS = 'docs/claims.md'
STATEMENTS = 'docs/statements.md'
RULES = 'docs/rules.md'

HEAD = '''# What was asked, and what answers it

Each sentence of what was asked of this library, and the answer in plain words. Under it stand the rules that say it ([rules.md](rules.md)) and the names
of the contracts, theorems and definitions that carry it; each name leads to its statement, word for word, in [statements.md](statements.md).
Both pages are made by `make docs` from `docs/claims.list` and the sources, and `make test` fails where they are stale. What all of this comes to,
for somebody who reads no proofs, is in [PROMISES.md](PROMISES.md).

A *contract* is the head of a function: the prover accepts the function only if it keeps it. A *theorem* is proved. A *definition* has to be believed only
if `make trust` lists it ([trust.md](trust.md)). An *edit* is a wrong program that the prover must refuse. Where an answer speaks of the rules alone, it
says so; `pfcp_request` carries it over to the code.

Three demands were made of the base: that any octets may come (1), that requests mean what the rules say (2), and one claim about every sequence of calls
(3). The changes that came after it have sections or sentences of their own. Terms (PDR, TEID, CHOOSE, peer, live) are explained at the head of
[rules.md](rules.md).

'''

STATEMENTS_HEAD = '''# The statements, word for word

What [claims.md](claims.md) names, cut from the sources by `make docs`: contracts, theorems, definitions, and the edits that the prover must refuse. Under
each stands where it is and which sentences it answers. Of a theorem the proof is left out here. What the rules say in words is in
[rules.md](rules.md).

`serve t who msg space` is the definition of one request of a peer: the outcome, the place of a fault, the reply space and the table at exit, of any octets.
`make` and `count_free` are the definitions of making a table and of counting free TEIDs. The session limit is a setting, which the table keeps;
the largest is `max_sessions`.

| Sign | How to read it |
|---|---|
| `a ≡ b` | a and b are equal |
| `T b` | the test b holds |
| `(x : A) → B`, `{x : A} → B` | for every x of the type A: B; `A → B` also says: from A follows B; `A → ⊥`: A does not hold |
| `A × B`; `(x : A) × B` | A and B; there is an x with B |
| `f a b`; `x.f` | the function f of a and b; the field f of x |
| `unfoldable`, `abbrev`, `pub` | marks of a definition; they change nothing of what it says |
| `List ℕ`; `[]`, `x ∷ xs`, `xs ++ ys` | numbers in a row, octets for one; none, x and then xs, xs and then ys |
| `Permᴰ xs ys` | xs and ys have the same members, in any order |
| `requires { .. }`, `ensures { .. }` | what a caller has to see to; what then holds, of the answer as `result` |
| `t.old`, `t.new`; `t.now` | what stands in the lent t when the call begins, and when it ends; the same of a t that is only read |

'''

# the kinds of names, in the order in which they are shown
KINDS = {'contract': 'Contracts', 'theorem': 'Theorems', 'definition': 'Definitions', 'edit': 'Edits that the prover must refuse'}


class Row:
    """A sentence with its plain answer, its rules, and the names that carry it, each with its line in the list."""

    def __init__(self, sentence, line):
        self.sentence, self.line, self.words, self.rules, self.names = sentence, line, [], None, []


class Section:
    def __init__(self, title):
        self.title, self.text, self.rows = title, [], []


def read_list(path):
    sections = []
    for number, line in enumerate((ROOT / path).read_text().split('\n'), 1):
        place = f'{path}:{number}'
        if line.startswith('#'):
            continue
        if line.startswith('== '):
            sections.append(Section(line[3:]))
        elif not sections:
            if line:
                raise SourceError(f'{place}: text before the first section')
        elif line.startswith('* '):
            sections[-1].rows.append(Row(line[2:], number))
        elif line.startswith('  ') and sections[-1].rows:
            add_to(sections[-1].rows[-1], line, place)
        elif not line.startswith(' ') and not sections[-1].rows:
            sections[-1].text.append(line)
        elif line:
            raise SourceError(f'{place}: neither a section, a sentence, its answer nor a name: {line}')
    seen = set()
    for row in (row for section in sections for row in section.rows):
        if not row.words:
            raise SourceError(f'{path}:{row.line}: no plain words for this sentence')
        if anchor(row.sentence) in seen:
            raise SourceError(f'{path}:{row.line}: this sentence stands twice')
        seen.add(anchor(row.sentence))
    return sections


def add_to(row, line, place):
    """One more line under a sentence."""
    if line.startswith('  - '):
        row.names.append((line[4:].strip(), place))
    elif line.startswith('  = '):
        row.rules = (line[4:].strip(), place)
    else:
        row.words.append(line.strip())


class Found:
    """What a name stands for: its kind, where it is, its statement, and the key by which it is shown."""

    def __init__(self, kind, path, line, text, key):
        self.kind, self.path, self.line, self.text, self.key = kind, path, line, text, key

    def heading(self):
        return f'{self.kind} `{self.key}`'

    def link(self):
        return f'[`{self.key}`](statements.md#{anchor(self.heading())})'


def find(sources, name, place):
    """A name of the list in the sources; an error says which row it is of."""
    try:
        found = find_edit(name) or find_contract(sources, name) or find_declaration(sources, name)
    except SourceError as error:
        raise SourceError(f'{place}: {error}') from error
    if found is None:
        raise SourceError(f'{place}: {name} is not found in the sources')
    return found


def find_edit(name):
    if 'must-fail/' not in name:
        return None
    paths = sorted(ROOT.glob(f'crates/{name}.edit' if '/must-fail/' in name else f'crates/*/{name}.edit'))
    if len(paths) > 1:
        raise SourceError(f'{name} stands in {" and in ".join(p.parts[-3] for p in paths)}')
    if not paths:
        return None
    lines = paths[0].read_text().rstrip('\n').split('\n')
    return Found('edit', str(paths[0].relative_to(ROOT)), 1, lines, f'{paths[0].parts[-3]}/{paths[0].stem}')


def find_contract(sources, name):
    parts = name.split('::')
    if len(parts) < 2:
        return None
    file = '/'.join(parts[1:-1]) or 'lib'
    source = sources.sources.get(f'crates/{parts[0]}/src/{file}.rt')
    function = source and source.functions.get(parts[-1])
    return function and Found('contract', source.path, function.line, function.head, name)


def find_declaration(sources, name):
    one = sources.named(name)
    if one is None:
        return None
    part = name.split('.')[-1]
    kind = 'definition' if one.is_definition() else 'theorem'
    if part == one.name:
        return Found(kind, one.module.path, one.line, statement(one), name)
    return Found(kind, one.module.path, one.parts[part], field(one, part), name)


def statement(one):
    """A definition whole, of a theorem what it says; with the parameters around it and the short words that they give."""
    text = one.lines() if one.is_definition() else one.signature
    short, lines = short_words(one, '\n'.join(text)), []
    for depth, parameters in enumerate(one.around, 1):
        lines.append(parameters)
        for other in short:
            lines += other.lines() if len(other.around) == depth else []
    return '\n'.join(lines + text).split('\n')


def short_words(one, text):
    """The definitions inside the same `module .. where` that a text uses, or that one of them uses."""
    used, found = set(words(text)), []
    for other in reversed(one.module.in_order[: one.module.in_order.index(one)]):
        near = other.around and other.around == one.around[: len(other.around)] and other.is_definition()
        if near and other.name in used and other.name not in (f.name for f in found):
            found.insert(0, other)
            used |= set(words('\n'.join(other.lines())))
    return found


def field(one, name):
    """The lines of one field of a record."""
    lines, taking = [], False
    for line in one.signature[1:] + one.opened:
        begins = re.match(r'\s*(?:pub )?(\S+) :', line)
        if begins and begins.group(1) in one.parts:
            taking = begins.group(1) == name
        if taking:
            lines.append(line)
    return lines


def anchor(title):
    """The name that a heading has in a link."""
    return re.sub(r'[^\w\- ]', '', title.lower()).replace(' ', '-')


class Claims:
    """The list with every name found, and each statement with the sentences that it answers."""

    def __init__(self, sources, path):
        self.sections = read_list(path)
        self.found = {}  # key -> (Found, its sentences)
        self.of_row = {}
        self.rules = sections_of_rules()
        for row in (row for section in self.sections for row in section.rows):
            found = [find(sources, name, place) for name, place in row.names]
            self.of_row[row] = found
            for one in found:
                self.found.setdefault(one.key, (one, []))[1].append(row.sentence)
        anchors = {}
        for key, (one, _) in self.found.items():
            other = anchors.setdefault(anchor(one.heading()), key)
            if other != key:
                raise SourceError(f'{path}: {other} and {key} have one link')

    def of_kind(self, kind):
        """The statements of a kind in order of file and line, with their sentences."""
        return sorted((pair for pair in self.found.values() if pair[0].kind == kind), key=lambda p: (p[0].path, p[0].line))


def sections_of_rules():
    """Each rule of docs/rules.md with the link to the section that it stands in."""
    found, section = {}, ''
    for line in (ROOT / RULES).read_text().split('\n'):
        if line.startswith('## '):
            section = anchor(line[3:])
        rule = re.match(r'- \*\*([0-9.]+)\*\* ', line)
        if rule:
            found[rule.group(1)] = f'rules.md#{section}'
    return found


def render_rules(claims, row):
    text, place = row.rules
    for rule in re.findall(r'[0-9]+\.[0-9]+', text):
        if rule not in claims.rules:
            raise SourceError(f'{place}: {rule} is no rule of {RULES}')
    linked = re.sub(r'[0-9]+\.[0-9]+', lambda m: f'[{m.group()}]({claims.rules[m.group()]})', text)
    return f'- rules {linked}'


def render_claims(claims):
    """The lines of docs/claims.md."""
    yield from HEAD.rstrip('\n').split('\n')
    yield ''
    for section in claims.sections:
        yield f'- [{section.title}](#{anchor(section.title)})'
    yield ''
    for section in claims.sections:
        yield f'## {section.title}'
        yield ''
        text = '\n'.join(section.text).strip('\n')
        if text:
            yield from text.split('\n')
            yield ''
        for row in section.rows:
            yield from render_row(claims, row)


def render_row(claims, row):
    yield f'### {row.sentence}'
    yield ''
    yield from row.words
    yield ''
    if row.rules:
        yield render_rules(claims, row)
    for kind, title in KINDS.items():
        links = [one.link() for one in claims.of_row[row] if one.kind == kind]
        if links:
            yield f'- {title.split(" ")[0].lower() if len(links) > 1 else kind} {", ".join(links)}'
    if row.rules or row.names:
        yield ''


def render_statements(claims):
    """The lines of docs/statements.md."""
    yield from STATEMENTS_HEAD.rstrip('\n').split('\n')
    yield ''
    for kind, title in KINDS.items():
        yield f'- [{title}](#{anchor(title)})'
    yield ''
    for kind, title in KINDS.items():
        yield f'## {title}'
        yield ''
        for one, sentences in claims.of_kind(kind):
            yield f'### {one.heading()}'
            yield ''
            yield from render_edit(one) if kind == 'edit' else render_statement(one)
            yield f'Answers: {" ".join(f"[{said}](claims.md#{anchor(said)})" for said in dict.fromkeys(sentences))}'
            yield ''


def render_statement(one):
    indent = min(len(line) - len(line.lstrip()) for line in one.text if line.strip())
    yield f'[{one.path.removeprefix("crates/")}:{one.line}](../{one.path}#L{one.line})'
    yield ''
    yield '```'
    yield from (line[indent:] for line in one.text)
    yield '```'
    yield ''


def render_edit(one):
    said = ' '.join(line[1:].strip() for line in one.text if line.startswith('#'))
    file = was = None
    for line in one.text:
        word, _, text = line.partition(':')
        text = text.removeprefix(' ')
        if word == 'file':
            yield f'{"And in" if file else said.rstrip(".") + ". In"} `{text}` of [this crate](../{one.path}) the line'
            file = text
        elif word == 'old':
            was = text
        elif word == 'new':
            yield f'`{was}` becomes `{text}`.' if text else f'`{was}` goes.'
    yield ''
