#!/usr/bin/env python3
"""Draws docs/contexts.svg: the source of a page, with the context of each place where a text goes, and the places that no context is for.

The name on the page is  Mum & Dad's "den".  What stands in each place is what encode writes of it there: --check has the library write it. It takes a moment;
with --check it proves the library first where that is not proved (tools/archive)."""
import argparse
import os
import sys
from xml.sax.saxutils import escape

ROOT = os.path.dirname(os.path.dirname(os.path.abspath(__file__)))
NAME, SCRIPT_TEXT = 'Mum & Dad\'s "den"', 'document.write("</script>")'
TEXT, ATTRIBUTE, SCRIPT, STYLE, BOTH, NONE = '#1b7f4d', '#2a66b8', '#8a4fbf', '#b06a00', '#0f6f85', '#b3261e'

# A line of the page: pieces of source, where a piece with a colour is a text that was put there; and the contexts of these, each with its colour.
PAGE = [
    (['<title>', ('Mum &amp; Dad\'s "den"', TEXT), '</title>'], [('text', TEXT)]),
    (['<style>.plate::before { content: "', ('Mum & Dad\'s \\"den\\"', STYLE), '" }</style>'], [('style_double', STYLE)]),
    (['<p title="', ('Mum &amp; Dad\'s &quot;den&quot;', ATTRIBUTE), '">', ('Mum &amp; Dad\'s "den"', TEXT), '</p>'], [('double_quoted', ATTRIBUTE), ('text', TEXT)]),
    (["<p title='", ('Mum &amp; Dad&#x27;s "den"', ATTRIBUTE), "'>"], [('single_quoted', ATTRIBUTE)]),
    (['<input value=', ('Mum&#x20;&amp;&#x20;Dad&#x27;s&#x20;&quot;den&quot;', ATTRIBUTE), '>'], [('unquoted', ATTRIBUTE)]),
    (['<button onclick="', ('call(\'Mum &amp; Dad\\\'s &quot;den&quot;\')', BOTH), '">'], [('script_single, then double_quoted', BOTH)]),
    (["<script>show('", ('Mum & Dad\\\'s "den"', SCRIPT), "')</script>"], [('script_single', SCRIPT)]),
    (['<script type="application/json">{"name": "', ('Mum & Dad\'s \\"den\\"', SCRIPT), '"}</script>'], [('json', SCRIPT)]),
    (['<script>', ('document.write("<\\/script>")', SCRIPT), '</script>'], [('script_raw', SCRIPT)]),
]
NOWHERE = [
    (['<a href="', ('TEXT', NONE), '">'], 'a URL: judge its scheme first, then double_quoted'),
    (['<script>let s = `', ('TEXT', NONE), '`</script>'], 'a template literal: use a string in quotes'),
    (['<script>if (', ('TEXT', NONE), ')</script>'], 'script outside a string'),
    (['<style>.', ('TEXT', NONE), ' { .. }</style>'], 'CSS outside a string'),
    (['<', ('TEXT', NONE), ' ', ('TEXT', NONE), '=".."> <!-- ', ('TEXT', NONE), ' -->'], 'names of tags and attributes, comments'),
    (['<div>', ('<b>TEXT</b>', NONE), '</div>'], 'a fragment of HTML: safe is no sanitizer, it shows tags as text'),
    (['<input value=', ('', NONE), ' disabled>'], 'an empty text in unquoted takes what follows as its value: write quotes'),
]
WIDE, HIGH, LEFT, CODE, LABELS, SIZE = 1120, 31, 22, 8.1, 770, 13.5


def words(x, y, text, colour='#1d2733', **more):
    """Returns a piece of text; of code where its length is given."""
    attributes = ''.join(' %s="%s"' % (name.replace('_', '-'), value) for name, value in more.items())
    return '<text x="%.1f" y="%.1f" fill="%s" xml:space="preserve"%s>%s</text>' % (x, y, colour, attributes, escape(text))


def source(pieces, y):
    """Returns a line of source: each piece at its place, those that were put there on a coloured ground."""
    drawn, x = [], LEFT + 12.0
    for piece in pieces:
        text, colour = piece if isinstance(piece, tuple) else (piece, None)
        wide = CODE * len(text)
        if colour:
            drawn.append('<rect x="%.1f" y="%.1f" width="%.1f" height="21" rx="3" fill="%s" fill-opacity="0.13" stroke="%s"/>' % (x - 1.5, y - 15, wide + 3, colour, colour))
        drawn.append(words(x, y, text, colour or '#5b6470', class_='code', textLength='%.1f' % wide, lengthAdjust='spacingAndGlyphs').replace('class-', 'class'))
        x += wide
    return drawn, x


def row(pieces, labels, y):
    """Returns a line with its labels at the right, and a dotted line to them."""
    drawn, x = source(pieces, y)
    at = LABELS
    drawn.append('<path d="M%.1f %.1fH%d" stroke="#b9c3cd" stroke-dasharray="2 4"/>' % (x + 8, y - 5, LABELS - 6))
    for text, colour in labels:
        wide = 8.3 * len(text) + 18
        drawn.append('<rect x="%d" y="%.1f" width="%.1f" height="22" rx="11" fill="%s"/>' % (at, y - 16, wide, colour))
        drawn.append(words(at + wide / 2, y - 0.5, text, '#fff', text_anchor='middle', font_weight='bold'))
        at += wide + 8
    return drawn


def picture():
    """Returns the whole picture."""
    top, second = 46, 46 + HIGH * len(PAGE) + 58
    high = second + HIGH * len(NOWHERE) + 14
    drawn = [
        '<svg xmlns="http://www.w3.org/2000/svg" viewBox="0 0 %d %d" width="%d" height="%d" role="img" font-family="DejaVu Sans, Verdana, sans-serif" font-size="%s">' % (WIDE, high, WIDE, high, SIZE),
        '<title>Which context goes where on a page</title>',
        '<style>.code { font-family: "DejaVu Sans Mono", Menlo, Consolas, monospace }</style>',
        '<rect width="%d" height="%d" fill="#eef1f4"/>' % (WIDE, high),
        words(LEFT, 28, 'The name Mum & Dad\'s "den" in each place of a page, and the context that writes it there', font_size='16', font_weight='bold'),
        '<rect x="%d" y="%d" width="%d" height="%d" rx="6" fill="#fff" stroke="#d6dde5"/>' % (LEFT - 8, top - 4, WIDE - 2 * LEFT + 16, HIGH * len(PAGE) + 10),
    ]
    for k, (pieces, labels) in enumerate(PAGE):
        drawn += row(pieces, labels, top + 22 + k * HIGH)
    drawn.append(words(LEFT, second - 14, 'No context helps here', NONE, font_size='16', font_weight='bold'))
    drawn.append('<rect x="%d" y="%d" width="%d" height="%d" rx="6" fill="#fff" stroke="#e3b5b1"/>' % (LEFT - 8, second - 4, WIDE - 2 * LEFT + 16, HIGH * len(NOWHERE) + 10))
    for k, (pieces, why) in enumerate(NOWHERE):
        y = second + 22 + k * HIGH
        drawn += source(pieces, y)[0] + [words(560, y, why, NONE)]
    return '\n'.join(drawn + ['</svg>', ''])


def written(library, label):
    """Returns what the library writes for the place of a label."""
    encode = lambda context, text: library.call('encode', context, [text.encode()])[0].decode()
    if label == 'script_single, then double_quoted':
        return encode('double_quoted', "call('%s')" % encode('script_single', NAME))
    return encode(label, SCRIPT_TEXT if label == 'script_raw' else NAME)


def differing():
    """Returns the labels of the places that show something else than what the library writes there."""
    sys.path.insert(0, os.path.join(ROOT, 'browser'))
    sys.dont_write_bytecode = True
    from library import linked
    library = linked(os.path.join(ROOT, 'target', 'draw_contexts'))
    places = [(piece[0], label) for pieces, labels in PAGE for piece, (label, _) in zip([piece for piece in pieces if isinstance(piece, tuple)], labels)]
    return [label for shown, label in places if shown != written(library, label)]


def main():
    usage = argparse.ArgumentParser(prog='tools/draw_contexts.py', description=__doc__, formatter_class=argparse.RawDescriptionHelpFormatter)
    usage.add_argument('--check', action='store_true', help='write nothing; status 1 if docs/contexts.svg is not what would be written, or the library writes another text in a place')
    check, path = usage.parse_args().check, os.path.join(ROOT, 'docs', 'contexts.svg')
    if not check:
        with open(path, 'w', encoding='utf-8') as file:
            file.write(picture())
    elif not os.path.exists(path) or open(path, encoding='utf-8').read() != picture():
        print('tools/draw_contexts.py: docs/contexts.svg is not as drawn')
        sys.exit(1)
    elif differing():
        print('tools/draw_contexts.py: the library writes another text for %s' % '; '.join(differing()))
        sys.exit(1)
    print('tools/draw_contexts.py: docs/contexts.svg is %s' % ('as drawn' if check else 'written'))


main()
