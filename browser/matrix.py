"""The matrix of contexts and places (crates/contained/specs/Matrix.antt) beside Chromium: each cell on the texts, and the samples of each place.

A cell that holds must do so on every text, with no difference but the exceptions of the law; one that alters must keep a thousand of the texts in its place, and
change the text that it names; one that breaks must do so on the text that it names, and on no shorter one of the texts."""
import base64
import json
import os
import sys

from places import LINE_ENDS, MOVED, NUL_DROPPED, NUL_NUMBER, NUL_REPLACED, NUL_STYLE, Place
from texts import MARKUP, TYPED, ascii_texts

HERE = os.path.dirname(os.path.abspath(__file__))
sys.path.insert(0, os.path.join(os.path.dirname(HERE), 'tools'))
import places_table  # noqa: E402

# What reads each place. A textarea has a line feed before the text: the browser drops the first one.
READERS = {
    'ElementText': "inElement('p', i)", 'TitleText': "inElement('title', i)", 'TextareaText': "inElement('textarea', i, '\\n')",
    'DoubleQuotedValue': "inValue('\"', '\"', i)", 'SingleQuotedValue': "inValue(\"'\", \"'\", i)", 'UnquotedValue': 'inBareValue(i)',
    'ScriptElement': "inElement('script', i)", 'StyleElement': "inElement('style', i)", 'ScriptSingle': "inString(\"'\", i)",
    'ScriptDouble': "inString('\"', i)", 'OldScriptSingle': "inOldString(\"'\", i)", 'OldScriptDouble': "inOldString('\"', i)", 'ScriptTemplate': 'inTemplate(i)',
    'StyleSingle': "inStyle(\"'\", i)", 'StyleDouble': "inStyle('\"', i)", 'JsonText': 'inJson(i)'}
# The places of Samples.antt, and what stands behind the value there.
SAMPLED = {
    'element_text': ('ElementText', b'</p>'), 'rcdata (ascii "title")': ('TitleText', b'</title>'), 'rcdata (ascii "textarea")': ('TextareaText', b'</textarea>'),
    'attribute 34': ('DoubleQuotedValue', b'"'), 'attribute 39': ('SingleQuotedValue', b"'"), 'attribute_unquoted': ('UnquotedValue', b'>'),
    'script_data': ('ScriptElement', b'</script>'), 'rawtext (ascii "style")': ('StyleElement', b'</style>'), 'script_string 39': ('ScriptSingle', b"'"),
    'script_string 34': ('ScriptDouble', b'"'), 'script_string_old 39': ('OldScriptSingle', b"'"), 'template': ('ScriptTemplate', b'`'),
    'style_string 39': ('StyleSingle', b"'"), 'style_string 34': ('StyleDouble', b'"'), 'json_string': ('JsonText', b'"')}
# Texts for the cells that alter.
SOME = list(dict.fromkeys(TYPED + MARKUP + list(ascii_texts())))
OUT, CHANGED, STAYS = 'leaves the place', 'is changed', 'stays'


def head(forms):
    """The scripts of a page, with what was written for each text."""
    data = base64.b64encode(json.dumps(forms, ensure_ascii=False).encode()).decode()
    with open(os.path.join(HERE, 'matrix.js'), encoding='utf-8') as file:
        return ('<script>const FORMS = JSON.parse(new TextDecoder().decode(Uint8Array.from(atob("%s"), c => c.charCodeAt(0))));\n%s</script>'
                % (data, file.read()))


def kinds(name, context, mark):
    """The exceptions of a cell that holds."""
    if mark == 'N':
        return [NUL_NUMBER if context == 'unquoted' else NUL_STYLE]
    copied = [LINE_ENDS, NUL_DROPPED if name == 'ElementText' else NUL_REPLACED]
    return {'': [], 'NC': copied, 'NC27': copied + [MOVED]}[mark]


def words(held, text):
    """What became of a text."""
    return OUT if held is None else STAYS if held == text else CHANGED


class Cells:
    """The cells of one context that are judged on the same texts: `look` has Chromium show a page (see check.py), `predict` applies kinds to a text."""
    def __init__(self, tally, look, predict, context):
        self.tally, self.look, self.predict, self.context = tally, look, predict, context

    def held(self, names, forms, page):
        """What Chromium holds in each of the places for each form."""
        places = [Place(self.context, name, '', READERS[name], []) for name in names]
        return self.look(page, places, len(forms), b'', head(forms))[0]

    def judge(self, name, verdict, texts, column):
        """One cell."""
        word, what = verdict
        row = (self.context, places_table.PLACES[name])
        place = Place(self.context, name, '', '', kinds(name, self.context, what) if word == 'holds' else [])
        for text, held in zip(texts, column):
            if name == 'UnquotedValue' and text == '':
                self.tally.compare(row, text, words(held, text), OUT, [])
            elif word == 'holds':
                self.tally.compare(row, text, held, *self.predict(place, text))
            elif word == 'alters':
                self.tally.compare(row, text, words(held, text) if text == what else OUT if held is None else STAYS, CHANGED if text == what else STAYS, [])
            else:
                self.tally.compare(row, text, OUT if held is None else STAYS, OUT if text == what else STAYS, [])


def check_context(tally, look, predict, library, context, verdicts, typed):
    """All cells of a context: those that hold on every text, those that alter on some, those that break on the text that they name and on shorter ones."""
    cells = Cells(tally, look, predict, context)
    held, altered, broken = ([name for name, (word, _) in verdicts.items() if word == wanted] for wanted in ('holds', 'alters', 'breaks'))
    pages = [(held, typed), (altered, SOME + [verdicts[name][1] for name in altered])]
    for length in sorted({len(verdicts[name][1]) for name in broken}):
        names = [name for name in broken if len(verdicts[name][1]) == length]
        pages.append((names, [text for text in typed if len(text) < length] + [verdicts[name][1] for name in names]))
    for k, (names, texts) in enumerate(pages):
        if not names:
            continue
        texts = list(dict.fromkeys(texts))
        forms = [None if form is None else form.decode() for form in library.call('encode', context, [text.encode() for text in texts])]
        for name, column in zip(names, cells.held(names, forms, 'matrix-%s-%d' % (context, k))):
            word, what = verdicts[name]
            short = [(text, held) for text, held in zip(texts, column) if word != 'breaks' or len(text) < len(what) or text == what]
            cells.judge(name, verdicts[name], [text for text, _ in short], [held for _, held in short])


def check_samples(tally, look):
    """The samples of each place: where the place takes all before its end, Chromium must hold the same; where it is left earlier, Chromium must leave it too, or
    hold what was taken. (The escaped states of a script element are no part of the place.)"""
    for place, samples in places_table.samples().items():
        name, end = SAMPLED[place]
        whole = [(source[:-len(end)], taken, held) for source, taken, held in samples if source.endswith(end) and not (name == 'ScriptElement' and b'<!--' in source)]
        forms = [source.decode() for source, _, _ in whole]
        column = Cells(tally, look, None, 'samples').held([name], forms, 'samples-' + name)[0]
        for (source, taken, value), held in zip(whole, column):
            expected = OUT if taken < len(source) and held is None else value.decode()
            tally.compare(('samples', places_table.PLACES[name]), source.decode(), OUT if held is None else held, expected, [])


def check(tally, look, predict, library, typed, progress):
    """The whole matrix."""
    lines, contexts = places_table.matrix(), places_table.contexts()
    for k, context in enumerate(contexts):
        progress('matrix, %d of %d: %s' % (k + 1, len(contexts), context))
        check_context(tally, look, predict, library, context, {name: verdicts[k] for name, verdicts in lines.items()}, typed)
    progress('matrix: samples')
    check_samples(tally, look)
