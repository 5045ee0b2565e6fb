#!/usr/bin/env python3
"""Which context goes where: reads the table of crates/contained/specs/Matrix.antt, and prints it as a table of Markdown, for README.md.

tools/check_papers compares what stands there with what this prints; browser/run has Chromium judge every cell.
"""
import argparse
import os
import re
import sys

ROOT = os.path.dirname(os.path.dirname(os.path.abspath(__file__)))
PLACES = {
    'ElementText': 'element text', 'TitleText': 'title', 'TextareaText': 'textarea', 'DoubleQuotedValue': 'attribute "', 'SingleQuotedValue': "attribute '",
    'UnquotedValue': 'attribute, no quotes', 'ScriptElement': 'script element', 'StyleElement': 'style element', 'ScriptSingle': "JS string '",
    'ScriptDouble': 'JS string "', 'OldScriptSingle': "JS string ' before 2019", 'OldScriptDouble': 'JS string " before 2019', 'ScriptTemplate': 'JS template',
    'StyleSingle': "CSS string '", 'StyleDouble': 'CSS string "', 'JsonText': 'JSON string'}
# A character that is listed as an exception, by the name of the list.
EXCEPTIONS = {'[]': '', 'nul': 'N', 'nul_and_cr': 'NC', 'nul_cr_and_moved': 'NC27'}
SHORT = {'text_minimal': 'minimal', 'double_quoted': 'double', 'single_quoted': 'single', 'script_single': "js '", 'script_double': 'js "',
         'script_quoted': 'js both', 'style_single': "css '", 'style_double': 'css "', 'style_quoted': 'css both', 'script_raw': 'raw', 'ascii_quoted': 'ascii'}


def spec(path):
    """A file of definitions."""
    with open(os.path.join(ROOT, 'crates', path), encoding='utf-8') as file:
        return file.read()


def bytes_of(term):
    """The bytes of a term such as `ascii "a" ++ (13 ∷ [])` or `utf8 0x2028`."""
    found = b''
    for text, number, run in re.findall(r'ascii "((?:\\.|[^"\\])*)"|utf8 0x([0-9A-F]+)|((?:\d+ ∷ )+)\[\]', term):
        if number:
            found += chr(int(number, 16)).encode()
        elif run:
            found += bytes(int(n) for n in run.split(' ∷ ')[:-1])
        else:
            found += re.sub(r'\\(.)', r'\1', text).encode()
    return found


def contexts():
    """The names of the contexts in the order of their numbers."""
    return re.findall(r'label \(ascii "(\w+)"\) (?:\(Units|ScriptRaw)', spec('rules/specs/Contexts.antt'))


def matrix():
    """Each place by its name, and for each context in their order its verdict: a word and, of `holds`, the exceptions' mark, otherwise the text."""
    lines, count = {}, len(contexts())
    body = re.sub(r'(?m)^ *--.*', '', spec('contained/specs/Matrix.antt').split('\nmatrix =\n')[1])
    for name, cells in re.findall(r'line (\w+) \((.*?)∷ \[\]\s*\)', body, re.S):
        found = re.findall(r'holds (\[\]|\w+)|(alters|breaks) \(((?:ascii "(?:\\.|[^"\\])*"|[^()"])*)\)', cells)
        lines[name] = [('holds', EXCEPTIONS[bad]) if bad else (word, bytes_of(term).decode()) for bad, word, term in found]
        if len(found) != count:
            sys.exit('crates/contained/specs/Matrix.antt: %s has %d verdicts for %d contexts' % (name, len(found), count))
    if list(lines) != list(PLACES):
        sys.exit('crates/contained/specs/Matrix.antt: its places are not those of tools/places_table.py')
    return lines


def samples():
    """Each place of Samples.antt by its term, and its samples: the source, the number of bytes that are taken, the bytes that are held."""
    found, place = {}, None
    for line in spec('places/specs/Samples.antt').split('\n'):
        head = re.match(r' *(?:∷ )?\(samples \((.*)\)$', line)
        one = re.match(r' *(?:∷ |\()sample \((.*)\) (\d+) (\[\]|\(.*\))\)*$', line)
        if head:
            place = head.group(1)
            found[place] = []
        elif one:
            found[place].append((bytes_of(one.group(1)), int(one.group(2)), bytes_of(one.group(3))))
    return found


def text(t):
    """A text of a cell."""
    return 'space' if t == ' ' else 'U+%04X' % ord(t) if len(t) == 1 and t > '~' else t


def cell(verdict, quote):
    """A cell in words."""
    word, what = verdict
    if word == 'holds':
        return what or 'yes'
    shown = text(what)
    return ('s ' if word == 'alters' else 'x ') + (shown if shown == 'space' or shown.startswith('U+') else quote(shown))


def code(t):
    """A text as code of Markdown."""
    return '`` ` ``' if t == '`' else '`%s`' % t


def markdown():
    """The table as lines of Markdown."""
    names = contexts()
    yield '| place | ' + ' | '.join('`%s`' % name for name in names) + ' |'
    yield '|---' * (len(names) + 1) + '|'
    for name, verdicts in matrix().items():
        place = re.sub(r"""(["'])""", lambda m: '`%s`' % m.group(), PLACES[name])
        marks = [cell(verdict, code) for verdict in verdicts]
        yield '| ' + place + ' | ' + ' | '.join('**%s**' % mark if verdict[0] == 'holds' else mark for mark, verdict in zip(marks, verdicts)) + ' |'


def plain():
    """The table as lines of plain text."""
    rows = [['place'] + [SHORT.get(name, name) for name in contexts()]]
    rows += [[PLACES[name]] + [cell(verdict, str) for verdict in verdicts] for name, verdicts in matrix().items()]
    widths = [max(len(row[k]) for row in rows) for k in range(len(rows[0]))]
    for row in rows:
        yield '  '.join(word.ljust(width) for word, width in zip(row, widths)).rstrip()


# Each paper: the lines that it shows, between a line that ends with the first mark and one that ends with the second.
PAPERS = {'README.md': lambda: list(markdown()), 'rust/src/lib.rs': lambda: ['//! ' + line for line in markdown()],
          'include/lintelrye.h': lambda: [' *   ' + line for line in plain()]}
MARKS = {'README.md': ('<!-- tools/places_table.py -->', '<!-- end of the table -->'), 'rust/src/lib.rs': ('//! <!-- tools/places_table.py --rust -->', '//! <!-- end of the table -->'),
         'include/lintelrye.h': (' * Which context goes where (tools/places_table.py --header):', ' * End of the table.')}


def split(paper):
    """What a paper has before the table, the table's lines, and what it has behind it; None where its marks are not there."""
    with open(os.path.join(ROOT, paper), encoding='utf-8') as file:
        lines = file.read().split('\n')
    first, last = MARKS[paper]
    if first not in lines or last not in lines:
        return None
    at, end = lines.index(first) + 1, lines.index(last)
    return lines[:at], [line for line in lines[at:end]], lines[end:]


def stale():
    """The papers that do not show the table as it is."""
    blank = {'README.md': '', 'rust/src/lib.rs': '//!', 'include/lintelrye.h': ' *'}
    return [paper for paper, shown in PAPERS.items() if split(paper) is None or split(paper)[1] != [blank[paper]] + shown() + [blank[paper]]]


def write():
    """Puts the table into each paper."""
    blank = {'README.md': '', 'rust/src/lib.rs': '//!', 'include/lintelrye.h': ' *'}
    for paper, shown in PAPERS.items():
        parts = split(paper)
        if parts is None:
            sys.exit('%s has no lines that mark the table' % paper)
        with open(os.path.join(ROOT, paper), 'w', encoding='utf-8') as file:
            file.write('\n'.join(parts[0] + [blank[paper]] + shown() + [blank[paper]] + parts[2]))


def main():
    usage = argparse.ArgumentParser(prog='tools/places_table.py', description=__doc__, formatter_class=argparse.RawDescriptionHelpFormatter)
    form = usage.add_mutually_exclusive_group()
    form.add_argument('--rust', action='store_const', dest='paper', const='rust/src/lib.rs', help='the same in the documentation of rust/src/lib.rs')
    form.add_argument('--header', action='store_const', dest='paper', const='include/lintelrye.h', help='as plain text, for the comment of include/lintelrye.h')
    form.add_argument('--write', action='store_true', help='put each of them in its place, between the two lines that mark it')
    given = usage.parse_args()
    if given.write:
        write()
    else:
        print('\n'.join(PAPERS[given.paper or 'README.md']()))


if __name__ == '__main__':
    main()
