"""Turns the pages of docs/ into HTML for the dossier: headings, paragraphs, lists, tables, code, and the links between the parts of one document. Not
all of Markdown, only what these pages use; what it does not know is an error. To be imported by the scripts beside it."""

import re
from html import escape

from claims import anchor
from sources import SourceError


class Page:
    """One page as a part of a document: `name` stands before its anchors, and `link` says what a link becomes, or None for plain text."""

    def __init__(self, name, link):
        self.name, self.link = name, link
        self.blocks = [(r'#+ ', self.heading), ('```', self.fenced), (r'\|', self.table), (r'- |\d+\. ', self.listing), ('    ', self.indented)]

    def identity(self, title):
        return f'{self.name}-{anchor(title)}'

    def inline(self, text):
        """Code, links, bold and italics in a line of text."""
        pieces = re.split(r'(`[^`]+`)', text)
        return ''.join(f'<code>{escape(p[1:-1])}</code>' if p.startswith('`') and len(p) > 1 else self.marked(p) for p in self.linked(pieces))

    def linked(self, pieces):
        """A link may have code in its text, so that it is spread over pieces: they are joined again, as HTML that is marked as such."""
        text = '\0'.join(pieces)
        text = re.sub(r'!?\[((?:[^\]\[]|\[[^\]]*\])*)\]\(([^)\s]+)\)', self.anchored, text)
        return text.split('\0')

    def anchored(self, found):
        words, target = found.group(1).replace('\0', ''), self.link(found.group(2))
        shown = re.sub('`([^`]+)`', lambda m: f'\2code\3{m.group(1)}\2/code\3', words)
        return f'\2a href="{target}"\3{shown}\2/a\3' if target else shown

    def marked(self, text):
        text = escape(text, quote=False)
        text = re.sub(r'\*\*([^*]+)\*\*', r'<strong>\1</strong>', text)
        text = re.sub(r'(?<![\w*])\*([^*\s](?:[^*]*[^*\s])?)\*(?![\w*])', r'<em>\1</em>', text)
        return text.replace('\2', '<').replace('\3', '>')

    def render(self, text, level=0):
        """The page's HTML; headings are `level` deeper than in the page."""
        lines = re.sub(r'<!--.*?-->\n?', '', text, flags=re.DOTALL).split('\n')
        at, out = 0, []
        while at < len(lines):
            line = lines[at]
            if not line.strip():
                at += 1
                continue
            block = next((block for begins, block in self.blocks if re.match(begins, line)), self.paragraph)
            at, html = block(lines, at, level)
            out.append(html)
        return '\n'.join(out)

    def heading(self, lines, at, level):
        marks, title = lines[at].split(' ', 1)
        depth = min(len(marks) + level, 6)
        return at + 1, f'<h{depth} id="{self.identity(title)}">{self.inline(title)}</h{depth}>'

    def fenced(self, lines, at, _):
        end = at + 1
        while end < len(lines) and not lines[end].startswith('```'):
            end += 1
        if end == len(lines):
            raise SourceError(f'docs: {self.name}: a block of code without an end')
        return end + 1, code(lines[at + 1 : end])

    def indented(self, lines, at, _):
        end = at
        while end < len(lines) and (lines[end].startswith('    ') or not lines[end].strip()):
            end += 1
        return end, code([line[4:] for line in lines[at:end]])

    def table(self, lines, at, _):
        end = at
        while end < len(lines) and lines[end].startswith('|'):
            end += 1
        rows = [[cell.strip() for cell in re.split(r'(?<!\\)\|', line.strip().strip('|'))] for line in lines[at:end]]
        head, body = rows[0], rows[2:]
        shown = '' if not any(head) else '<thead>' + self.row(head, 'th') + '</thead>'
        return end, f'<table>{shown}<tbody>' + '\n'.join(self.row(row, 'td') for row in body) + '</tbody></table>'

    def row(self, cells, tag):
        return '<tr>' + ''.join(f'<{tag}>{self.inline(cell)}</{tag}>' for cell in cells) + '</tr>'

    def listing(self, lines, at, level):
        """A list; what stands further in belongs to its item."""
        tag = 'ul' if lines[at].startswith('- ') else 'ol'
        mark = r'- ' if tag == 'ul' else r'\d+\. '
        items = []
        while at < len(lines) and re.match(mark, lines[at]):
            width = re.match(mark, lines[at]).end()
            item, at = [lines[at][width:]], at + 1
            while at < len(lines) and (lines[at].startswith('  ') or self.goes_on(lines, at)):
                item.append(lines[at][width:] if lines[at][:width].strip() == '' else lines[at])
                at += 1
            items.append(self.item('\n'.join(item), level))
            while at < len(lines) and not lines[at].strip() and self.has_item(lines, at, mark):
                at += 1
        return at, f'<{tag}>' + '\n'.join(f'<li>{item}</li>' for item in items) + f'</{tag}>'

    @staticmethod
    def goes_on(lines, at):
        """An empty line inside an item: something further in follows."""
        return not lines[at].strip() and at + 1 < len(lines) and lines[at + 1].startswith('  ') and bool(lines[at + 1].strip())

    @staticmethod
    def has_item(lines, at, mark):
        rest = [line for line in lines[at:] if line.strip()]
        return bool(rest) and bool(re.match(mark, rest[0]))

    def item(self, text, level):
        html = self.render(text, level)
        return re.sub(r'^<p>(.*?)</p>', r'\1', html, count=1, flags=re.DOTALL)

    def paragraph(self, lines, at, _):
        end = at
        while end < len(lines) and lines[end].strip() and (end == at or not re.match(r'#+ |```|\||- |\d+\. ', lines[end])):
            end += 1
        return end, f'<p>{self.inline(" ".join(line.strip() for line in lines[at:end]))}</p>'


def code(lines):
    """Text as it stands."""
    return '<pre>' + escape('\n'.join(lines).strip('\n'), quote=False) + '</pre>'
