"""The texts that go through every context: what people type, difficult ones, and random ones from a fixed seed."""
import html.entities
import random

TYPED = ["Mum & Dad's", 'Lobby', '5 "Penthouse"', "O'Neill & Sons <Ltd>", 'First line\nsecond line', 'First line\r\nsecond line', 'Old\rline', 'Tab\there',
         '  two  blanks  ', ' ', '', 'Straße 7', 'Ærø', 'Zoë', 'Zoe\u0308', 'naïve café', 'e\u0301\u0323', 'שלום עולם', 'مصعد ٣', 'a\u202eb\u202cc',
         'עברית & English', '東京駅', 'ไทย', 'हिन्दी', '😀', '👩\u200d🔧', '🏳️\u200d🌈', '🇩🇰', 'floor 1½ → 2', '50 % & more', '100 < 200 > 50', '1/2', 'a=b&c=d',
         'a&lt;b', '&amp;lt;', '&', '&&', '&;', '&#', '&#x', '"\'', "''", '""', '`', '\\', '\\\\', "\\'", '\\"', '\\n', '\\x41', '\\u0041', '\\41 ', '\\', 'a\\']
MARKUP = ['</script>', '</SCRIPT >', '</script', '</script/', '</script\n', '</script\x0b', '</script\x1c', '</scripts>', '<script>', '<<script>', '<</script>',
          '<!--', '<!-->', '<!--<script>', '<!--<script></script>', '<!--</script>', '-->', '--!>', '<!-', '<!', '<', '</', '<\\/script>', '<\\!--', ']]>',
          '<![CDATA[', '<![CDATA[x]]>', '<?xml?>', '</style>', '</STYLE ', '</textarea>', '</title>', '</div>', '</pre>', '<plaintext>', '<noscript>',
          '<img src=x onerror=alert(1)>', '" onclick="x', "' onclick='x", ' onclick=x', '>', '/>', 'javascript:alert(1)', '${x}', '{{x}}', '*/', '/*', '//',
          'url(x)', '}', ';', '\\\n', '\n', '\n\n', '\r', '\r\n', '\r\r', '\n\r', '\r\0\n', '\0\n', '\n\0', '\0', '\0\0', '\u2028', '\u2029', 'a\u2028b\u2029c',
          '\u2027\u202a', '\ufeff', '\ufeffa', '\ufffd', '\ufffe', '\uffff', '\U0001fffe', '\U0010ffff', '\U00010000', '\ud7ff', '\ue000', '\x7f', '\x80', '\x85',
          '\x9f', '\xa0', '\u200b', '\u200b\n', '\n\u200b', '\u2060', '\u3000', ' \x0b ']
LONG = ['<', '>', '&', '"', "'", '/', '\\', '\n', '\t', ' ', 'é', '\u2028', '😀', '</script>', '<!--', '&lt;', '&amp', "Mum & Dad's "]


def ascii_texts():
    """Yields every ASCII character alone, twice, between letters and before digits; all of them in one text; each with each mark that some context replaces."""
    every = [chr(n) for n in range(128)]
    for c in every:
        yield from (c, c + c, 'a' + c + 'b', c + '1F ', '&' + c, '<' + c, '\\' + c)
    yield ''.join(every)
    yield ''.join(reversed(every))


def reference_texts():
    """Yields the text of every named reference, and every name typed as a reference, with its `;` or without: what was typed is what must be shown."""
    for name, value in sorted(html.entities.html5.items()):
        yield value
        yield '&' + name
    for number in ('0', '9', '13', '65', '128', 'x0', 'xD', 'x41', 'xD800', 'x10FFFF', 'x110000', '4294967361'):
        yield from ('&#' + number + ';', '&#' + number)


def random_texts(count):
    """Yields random texts of pieces, from a fixed seed."""
    source = random.Random(14)
    plain = [chr(n) for n in range(32, 127)] + ['å', 'ß', 'ş', 'ж', 'ש', 'ع', '中', '한', '😀', '\u0301', '\u200d']
    controls = [chr(n) for n in range(32)] + ['\x7f', '\u2028', '\u2029', '\ufeff', '\ufffd']
    pieces = MARKUP + TYPED + ['script', 'style', 'amp', 'lt;', '#x', '#', ';', '/', '>']
    for k in range(count):
        alphabet = (plain, plain + controls, pieces, pieces + controls, list('<!-/script >SCRIPT\\\'"&'))[k % 5]
        yield ''.join(source.choice(alphabet) for _ in range(source.randrange(1, 24)))


def texts():
    """Returns all of them, each once."""
    every = TYPED + MARKUP + list(ascii_texts()) + [chr(n) for n in range(128, 256)] + list(reference_texts())
    every += [piece * (10000 // len(piece.encode())) for piece in LONG] + ['a' * 65534]
    every += random_texts(1500)
    return list(dict.fromkeys(every))
