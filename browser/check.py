"""Makes the pages, has Chromium load them, and compares. Started by browser/run, which says what the words are:
    check.py WORK SCREENSHOT COMMAND...    the folder for the pages, the image to write (or nothing), and how calls.c is run"""
import os
import re
import sys

import chromium
import journey
import matrix
import references
from library import CONTEXTS, Library
from places import PLACES, Place
from tally import Tally
from texts import texts

HERE = os.path.dirname(os.path.abspath(__file__))
ELEMENTS = 6  # of a page: html, head, meta, title, script, body


def progress(words):
    """Says on the terminal what is under way."""
    print(words, file=sys.stderr, flush=True)


def write_page(work, name, head, body):
    """Writes a page, and returns its path."""
    path = os.path.join(work, name + '.html')
    with open(path, 'wb') as file:
        file.write(('<!doctype html><html lang=en><head><meta charset=utf-8><title>%s</title>%s</head><body>' % (name, head)).encode() + body
                   + b'</body></html>\n')
    return path


def seen(work, name, places, count, body, head=''):
    """What Chromium holds in each place of a page: a list of texts for each place, None where it found nothing; and a line of the numbers of elements and of
    texts that were run."""
    with open(os.path.join(HERE, 'page.js'), encoding='utf-8') as file:
        script = '<script>%s\nreportAll([%s], %d);</script>' % (file.read(), ', '.join('i => ' + place.reader for place in places), count)
    page = write_page(work, name, script + head, body)
    found = re.search('<pre id="result">([^<]*)</pre>', chromium.dom(work, page))
    lines = found.group(1).split('\n') if found else []
    if len(lines) != len(places) + 1:
        return [[None] * count for _ in places], None
    columns = [[None if word == '-' else bytes.fromhex(word).decode('utf-16-be', 'surrogatepass') for word in line.split(' ')] for line in lines[1:]]
    return [[None if text is None else place.undo(text) for text in column] for place, column in zip(places, columns)], lines[0]


def predict(place, expected):
    """What a browser should hold for an expected text, and the kinds by which it differs."""
    kinds = []
    for kind in place.kinds:
        changed = kind.change(expected)
        if changed != expected:
            kinds.append(kind.name)
        expected = changed
    return expected, kinds


def check_context(tally, library, work, context, typed):
    """Encodes texts in one context, shows each in all of the context's places, and compares."""
    places = [place for place in PLACES if place.context == context]
    written = [place.written(library, typed) for place in places]
    body = b''.join(place.write(i, column[i] or b'') for i in range(len(typed)) for place, column in zip(places, written))
    columns, counts = seen(work, context, places, len(typed), body)
    for place, column, held in zip(places, written, columns):
        for i, text in enumerate(typed):
            expected = None if column[i] is None else place.expected(text, column[i].decode(errors='replace'))
            predicted, kinds = predict(place, expected) if expected is not None else ('a result', [])
            tally.compare((context, place.name), text, held[i], predicted, kinds)
    wanted = ELEMENTS + len(typed) * sum(place.elements() for place in places)
    tally.compare((context, 'elements, texts run'), '', counts, '%d 0' % wanted, [])


def check_references(tally, library, work):
    """Shows every reference in element text and in an attribute, and compares what Chromium reads with what browse gives in every HTML context, and with
    what decode gives in one of each kind."""
    every = references.references()
    places = [Place('text', 'element text', '<div id=a{i}>{e}</div>', "textAt('a', i)", []),
              Place('double_quoted', 'attribute', '<div id=d{i} title="{e}"></div>', "titleAt('d', i)", [])]
    contexts = {'browse': {'element text': ['text', 'text_minimal', 'safe'], 'attribute': ['double_quoted', 'single_quoted', 'quoted', 'unquoted', 'ascii_quoted']},
                'decode': {'element text': ['text'], 'attribute': ['double_quoted']}}
    typed = [text.encode() for text in every]
    body = b''.join(place.write(i, text) for i, text in enumerate(typed) for place in places)
    columns, _ = seen(work, 'references', places, len(every), body)
    for operation, switches in references.SWITCHES.items():
        for place, column, context in [(place, column, context) for place, column in zip(places, columns) for context in contexts[operation][place.name]]:
            row = (operation, '%s, %s' % (place.name, context))
            given = [None if result is None else result.decode(errors='replace') for result in library.call(operation, context, typed)]
            for text, held, result in zip(every, column, given):
                compare_reference(tally, row, text, held, result, switches)
            tally.notes.append('%s %s: %s' % (*row, references.listed([text for text, held, result in zip(every, column, given) if held != result])))


def compare_reference(tally, row, text, held, given, switches):
    """One reference. A difference is explained if the browser and the call each give what the reader says, by the switches that mattered."""
    attribute = row[1].startswith('attribute')
    browser, used = references.reading(text, attribute, references.BROWSER)
    own, _ = references.reading(text, attribute, switches)
    if given == own and held == browser and own != browser:
        tally.compare(row, text, held, browser, sorted(used - switches))
    else:
        tally.compare(row, text, held, given, [])


def check_journey(tally, library, work, image):
    """Compares the texts on the page of the journey log, and where an image is wanted, writes it."""
    head, body, shown = journey.journey(library)
    (held,), _ = seen(work, 'journey', [Place('text', 'cells', '', "textAt('a', i)", [])], len(shown), body.encode(), head)
    for text, value in zip(shown, held):
        tally.compare(('journey log', 'its texts'), text, value, text, [])
    if image and not chromium.picture(work, write_page(work, 'journey-log', head, body.encode()), image, *journey.SIZE):
        progress('Chromium wrote no image')
        sys.exit(2)


def main():
    """Every context, the references, the journey log, the table of contexts and places; then the summary."""
    work, image, command = sys.argv[1], sys.argv[2], sys.argv[3:]
    library, tally, typed = Library(command), Tally(), texts()
    progress('%s; %d texts in each context' % (chromium.version(work), len(typed)))
    for k, context in enumerate(CONTEXTS):
        progress('%d of %d: %s' % (k + 1, len(CONTEXTS) + 2, context))
        size = 1200 if context.startswith('style') else len(typed)
        for at in range(0, len(typed), size):
            check_context(tally, library, work, context, typed[at:at + size])
    progress('%d of %d: references' % (len(CONTEXTS) + 1, len(CONTEXTS) + 2))
    check_references(tally, library, work)
    progress('%d of %d: journey log' % (len(CONTEXTS) + 2, len(CONTEXTS) + 2))
    check_journey(tally, library, work, image)
    matrix.check(tally, lambda *words: seen(work, *words), predict, library, typed, progress)
    sys.exit(1 if tally.show() else 0)


main()
