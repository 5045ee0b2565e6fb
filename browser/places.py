"""The places of a page that a context writes for, and what a browser changes there by itself.

A place is markup in which {i} is the number of the text and {e} what the encoder wrote, and a script expression that gives what the browser holds
there for text number i. A kind is an explained difference, defined as a change of the text: the browser must hold exactly the text with the changes of
the place's kinds, in their order."""
import json
import re


class Kind:
    """An explained difference: its name, and the change of the text that a browser makes."""
    def __init__(self, name, change):
        self.name, self.change = name, change


LINE_ENDS = Kind('a carriage return, copied into the page, is read as a line feed, and so is one with the line feed after it',
                 lambda text: text.replace('\r\n', '\n').replace('\r', '\n'))
NUL_DROPPED = Kind('a NUL, copied into element text, is dropped', lambda text: text.replace('\0', ''))
NUL_REPLACED = Kind('a NUL, copied into an attribute, a script, a title or a textarea, is read as U+FFFD', lambda text: text.replace('\0', '\ufffd'))
NUL_NUMBER = Kind('a NUL, written &#x00; in an unquoted attribute, is read as U+FFFD', lambda text: text.replace('\0', '\ufffd'))
NUL_STYLE = Kind('a NUL, for which a style string has U+FFFD, is U+FFFD', lambda text: text.replace('\0', '\ufffd'))
MOVED = Kind('one of the 27 characters U+0080 to U+009F that windows-1252 has others for, written as a number, is read as that other one',
             lambda text: re.sub('[\x80-\x9f]', lambda m: m.group().encode('latin-1').decode('cp1252', 'ignore') or m.group(), text))
FIRST_LINE_FEED = Kind('a line feed at the start of a pre or a textarea is dropped', lambda text: text[1:] if text[:1] == '\n' else text)
FIELD = Kind('line breaks are dropped by a text field that takes its value from the attribute', lambda text: text.replace('\n', '').replace('\r', ''))
FEEDS = Kind('U+000B or U+000C with nothing but blanks beside it is not shown', lambda text: text if text.strip('\t\n\v\f ') else re.sub('[\v\f]', '', text))
ZERO_WIDTH = Kind('a line break beside U+200B is not shown', lambda text: re.sub('(?<=\u200b)[ \t]*\n[ \t\n]*|[ \t\n]*\n[ \t]*(?=\u200b)', '', text))
BLANKS = Kind('blanks, tabs and line breaks in a row are shown as one blank, at either end as none', lambda text: re.sub('[ \t\n]+', ' ', text).strip(' '))
NOTHING = Kind('the empty text, of which an unquoted attribute has nothing, takes the next attribute for its value',
               lambda text: 'title=lang=x' if text == 'title= lang=x' else text)


def same(text, _written):
    """Returns what most places should hold: the text."""
    return text


class Place:
    """`source` makes of a text what the encoder gets, `expected` what the browser should hold; `undo` reads what the script expression gives."""
    def __init__(self, context, name, markup, reader, kinds, source=str, expected=same, undo=str):
        self.context, self.name, self.markup, self.reader, self.kinds = context, name, markup, reader, kinds
        self.source, self.expected, self.undo = source, expected, undo

    def written(self, library, texts):
        """Returns what the library writes for each text."""
        return library.call('encode', self.context, [self.source(text).encode() for text in texts])

    def write(self, i, written):
        """Returns the markup for text number i."""
        return self.markup.encode().replace(b'{i}', b'%d' % i).replace(b'{e}', written)

    def elements(self):
        """Returns how many elements the markup has."""
        return len(re.findall('<[a-z]', self.markup))


class Event(Place):
    """A button whose handler calls `landing` with a script string: the text is written by the inner context, and the whole handler by the outer one. Of a
    long text the first 8,000 characters are taken, so that the handler is within the limit of a text."""
    def __init__(self, outer, around, inner, quote):
        letter = 'e%s%s' % ({'"': 'd', "'": 's', '': 'u'}[around], {'"': 'd', "'": 's'}[quote])
        letter += 'b' if inner == 'script_quoted' else ''
        name = 'onclick%s, %s %s' % (' in ' + around if around else '', inner, quote)
        super().__init__(outer, name, '<button id=%s{i} onclick=%s{e}%s></button>' % (letter, around, around), "clicked('%s', i)" % letter, [],
                         source=lambda text: text[:8000], expected=lambda text, _: text[:8000])
        self.inner, self.quote = inner, quote.encode()

    def written(self, library, texts):
        """Returns what the library writes for each text by two calls, the inner one first."""
        strings = library.call('encode', self.inner, [self.source(text).encode() for text in texts])
        return library.call('encode', self.context, [b'landing(' + self.quote + (string or b'') + self.quote + b')' for string in strings])


def style_string(serialized):
    """Returns the value of a string as getComputedStyle writes it: in double quotes, with \\" and \\\\, and control characters as hex digits and a space."""
    if len(serialized) < 2 or serialized[0] != '"' or serialized[-1] != '"':
        return None
    return re.sub(r'\\(?:([0-9a-f]{1,6}) |(["\\]))', lambda m: chr(int(m.group(1), 16)) if m.group(1) else m.group(2), serialized[1:-1])


def in_text(context, *kinds):
    """Returns the text of an element."""
    return Place(context, 'element text', '<div id=a{i}>{e}</div>', "textAt('a', i)", [LINE_ENDS, NUL_DROPPED, *kinds])


def in_attribute(context, quote, *kinds):
    """Returns an attribute in quotes."""
    letter = 'd' if quote == '"' else 's'
    return Place(context, 'attribute in ' + quote, '<div id=%s{i} title=%s{e}%s></div>' % (letter, quote, quote), "titleAt('%s', i)" % letter,
                 [LINE_ENDS, NUL_REPLACED, *kinds])


def in_script(context, quote):
    """Returns a string in a script, which the script keeps when it is run."""
    number = 0 if quote == '"' else 1
    return Place(context, 'script string in ' + quote, '<script>V[2 * {i} + %d] = %s{e}%s;</script>' % (number, quote, quote), 'V[2 * i + %d]' % number, [])


def in_style(context, quote):
    """Two places: a namespace, whose text the style engine gives back as it is, and the content of a pseudo-element as computed."""
    letter = 'd' if quote == '"' else 's'
    return [Place(context, '@namespace in ' + quote, '<style id=n%s{i}>@namespace n %s{e}%s;</style>' % (letter, quote, quote),
                  "at('n%s', i).sheet.cssRules[0].namespaceURI" % letter, [NUL_STYLE]),
            Place(context, 'content: in ' + quote, '<style>#%s{i}::before { content: %s{e}%s }</style><div id=%s{i}></div>' % (letter, quote, quote, letter),
                  "getComputedStyle(at('%s', i), '::before').content" % letter, [NUL_STYLE], undo=style_string)]


def in_events():
    """Returns every kind of attribute with every kind of script string: the twelve pairs of contexts, those for either quote with each quote."""
    return [Event(outer, around, inner, quote)
            for outer, around in (('double_quoted', '"'), ('single_quoted', "'"), ('quoted', '"'), ('quoted', "'"), ('unquoted', ''))
            for inner, quote in (('script_single', "'"), ('script_double', '"'), ('script_quoted', "'"), ('script_quoted', '"'))]


PLACES = [
    in_text('text_minimal'),
    in_text('text'),
    Place('text', 'pre', '<pre id=p{i}>{e}</pre>', "textAt('p', i)", [LINE_ENDS, NUL_DROPPED, FIRST_LINE_FEED]),
    Place('text', 'as shown, pre-wrap', '<div id=w{i} style=white-space:pre-wrap>{e}</div>', "at('w', i).innerText", [LINE_ENDS, NUL_DROPPED]),
    Place('text', 'as shown', '<div id=n{i}>{e}</div>', "at('n', i).innerText", [LINE_ENDS, NUL_DROPPED, FEEDS, ZERO_WIDTH, BLANKS]),
    Place('text', 'textarea', '<textarea id=t{i}>{e}</textarea>', "textAt('t', i)", [LINE_ENDS, FIRST_LINE_FEED, NUL_REPLACED]),
    Place('text', 'title', '<title id=h{i}>{e}</title>', "textAt('h', i)", [LINE_ENDS, NUL_REPLACED]),
    in_attribute('double_quoted', '"'),
    Place('double_quoted', 'text field', '<input id=f{i} value="{e}">', "at('f', i).value", [LINE_ENDS, NUL_REPLACED, FIELD]),
    in_attribute('single_quoted', "'"),
    in_attribute('quoted', '"'),
    in_attribute('quoted', "'"),
    in_text('safe'),
    in_attribute('safe', '"'),
    in_attribute('safe', "'"),
    Place('unquoted', 'last attribute', '<div id=u{i} title={e}></div>', "titleAt('u', i)", [NUL_NUMBER]),
    Place('unquoted', 'before another', '<div id=o{i}><b title={e} lang=x></b></div>', "attributesOf(at('o', i).firstChild)", [NUL_NUMBER, NOTHING],
          expected=lambda text, _: 'title=%s lang=x' % text),
    in_script('script_single', "'"),
    in_script('script_double', '"'),
    in_script('script_quoted', "'"),
    in_script('script_quoted', '"'),
    *in_style('style_single', "'"),
    *in_style('style_double', '"'),
    *in_style('style_quoted', "'"),
    *in_style('style_quoted', '"'),
    Place('script_raw', 'as written', '<script type=text/plain id=r{i}>{e}</script>after', "textAt('r', i)", [LINE_ENDS, NUL_REPLACED],
          expected=lambda _, written: written),
    Place('script_raw', 'what follows it', '', "at('r', i).nextSibling.data", [], expected=lambda _text, _written: 'after'),
    Place('script_raw', 'run, in a string', '<script>V[2 * {i}] = {e};</script>', 'V[2 * i]', [], source=lambda text: json.dumps(text, ensure_ascii=False)),
    Place('json', 'data for JSON.parse', '<script type=application/json id=j{i}>"{e}"</script>', "JSON.parse(textAt('j', i))", []),
    in_script('json', '"'),
    in_text('ascii_quoted', MOVED),
    in_attribute('ascii_quoted', '"', MOVED),
    in_attribute('ascii_quoted', "'", MOVED),
    *in_events(),
]
