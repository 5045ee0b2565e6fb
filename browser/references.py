"""References as the HTML Standard's tokenizer reads them, which browse does too, and as decode does: one reader with four switches.

Each switch is a kind of difference that docs/DIFFERENCES.md lists. All off it is decode, all on it is the Standard's tokenizer and browse. So a difference
between decode and a browser is explained exactly if each of the two gives what the reader says with its switches, and none of browse's is explained."""
import html.entities
import random
import re

LEFT = 'a number that decode leaves: 0 to 8, 11, 14 to 31, a surrogate, above 10FFFF'
WINDOWS = 'one of the 27 numbers from 80 to 9F hex that a browser takes as Windows-1252'
BARE_NAME = 'a name without its `;`'
BARE_NUMBER = 'a number without its `;`'
BROWSER = frozenset([LEFT, WINDOWS, BARE_NAME, BARE_NUMBER])
SWITCHES = {'browse': BROWSER, 'decode': frozenset()}

NAMES = html.entities.html5
WINDOWS_TEXTS = {n: bytes([n]).decode('cp1252') for n in range(0x80, 0xA0) if n not in (0x81, 0x8D, 0x8F, 0x90, 0x9D)}
REFERENCE = re.compile('&(?:#(?:[xX]([0-9A-Fa-f]+)|([0-9]+))(;?)|([A-Za-z0-9]+;?))')


def number(match, switches, used):
    """The text that a numeric reference represents, or the reference itself where it is left. Notes the switches that mattered."""
    hexadecimal, decimal, end, _ = match.groups()
    digits = (hexadecimal or decimal).lstrip('0') or '0'
    value = 0x110000 if len(digits) > 8 else int(digits, 16 if hexadecimal else 10)
    needs = set() if end else {BARE_NUMBER}
    if value > 0x10FFFF or 0xD800 <= value <= 0xDFFF or value < 32 and value not in (9, 10, 12, 13):
        needs.add(LEFT)
    if not needs <= switches:
        return match.group()
    used |= needs
    if value in WINDOWS_TEXTS and WINDOWS in switches:
        used.add(WINDOWS)
        return WINDOWS_TEXTS[value]
    return '\ufffd' if value == 0 or 0xD800 <= value <= 0xDFFF or value > 0x10FFFF else chr(value)


def named(match, attribute, switches, used):
    """The text that a named reference represents, and what follows its longest name; the reference itself where it is left."""
    name, after = match.group(4), match.string[match.end():match.end() + 1]
    if name.endswith(';') and name in NAMES:
        return NAMES[name]
    longest = next((k for k in range(len(name), 0, -1) if name[:k] in NAMES), 0)
    following = name[longest:longest + 1] or after
    if longest == 0 or BARE_NAME not in switches or attribute and re.match('[A-Za-z0-9=]', following):
        return match.group()
    used.add(BARE_NAME)
    return NAMES[name[:longest]] + name[longest:]


def reading(text, attribute, switches):
    """The text with its references replaced, in an attribute or in element text, and the switches that mattered."""
    used = set()
    result = REFERENCE.sub(lambda m: named(m, attribute, switches, used) if m.group(4) else number(m, switches, used), text)
    return result, used


def ranges(values):
    """Numbers in words: `1-8 11`."""
    words, rising = [], sorted(values)
    for k, n in enumerate(rising):
        if k and rising[k - 1] == n - 1:
            words[-1] = '%s-%d' % (words[-1].split('-')[0], n)
        else:
            words.append(str(n))
    return ' '.join(words)


def listed(different):
    """Says which of the references that are read in another way are plain names and decimal numbers."""
    decimal = {int(text[2:-1]) for text in different if re.fullmatch('&#(0|[1-9][0-9]{0,6});', text)}
    named = [text for text in different if text[1:] in NAMES]
    bare = [text for text in named if text[-1] != ';']
    return ('Chromium reads in another way %d of the %d names that end in `;`, %d of the %d names that need none, and %d of the decimal numbers with `;`: %s'
            % (len(named) - len(bare), sum(name[-1] == ';' for name in NAMES), len(bare), sum(name[-1] != ';' for name in NAMES), len(decimal),
               ranges(decimal)))


def numbers():
    """0 to 120 hex and what lies at the edges, in decimal and hex, with leading zeros, with many digits; also without `;`."""
    edges = [0x17F, 0x2028, 0xD7FF, 0xD800, 0xDBFF, 0xDC00, 0xDFFF, 0xE000, 0xFDD0, 0xFEFF, 0xFFFD, 0xFFFE, 0xFFFF, 0x10000, 0x1FFFE, 0x10FFFD, 0x10FFFF,
             0x110000, 0x200000, 0x7FFFFFFF, 0x80000000, 0xFFFFFFFF, 0x100000000, 0x100000041, 0x10000000000000041, 10 ** 30, 10 ** 300, 10 ** 3000]
    for n in list(range(0x121)) + edges:
        yield from ('#%d' % n, '#x%x' % n, '#X%X' % n, '#x%X' % n)
    for n in (0, 9, 0x41, 0x80, 0xD800, 0x10FFFF, 0x110000):
        for zeros in (1, 8, 100, 1000):
            yield from ('#' + '0' * zeros + '%d' % n, '#x' + '0' * zeros + '%x' % n, '#X' + '0' * zeros + '%X' % n)


def soup(count):
    """Random texts of pieces of references, from a fixed seed."""
    source = random.Random(15)
    pieces = ['&', '#', 'x', 'X', ';', '=', ' ', 'a', '4', '65', '0', '128', '9f', 'D800', 'lt', 'gt;', 'amp', 'AMP', 'not', 'notin', 'in;', 'nGt;', 'copy', 'é']
    for _ in range(count):
        yield ''.join(source.choice(pieces + ['&'] * 6 + ['&#'] * 4) for _ in range(source.randrange(1, 12)))


def references():
    """Every reference that is compared: numbers and names, each with and without `;` and before other text, and what only looks like one."""
    bodies = list(numbers()) + sorted({name.rstrip(';') for name in NAMES})
    every = ['&%s%s' % (body, end) for end in (';', '', ' ', 'x;', '=', '&') for body in bodies]
    every += ['&%s;' % name.rstrip(';').swapcase() for name in sorted(NAMES)]
    every += ['&', '&;', '&#', '&#;', '&#x', '&#x;', '&#xg;', '&#+65;', '&#-65;', '&# 65;', '&#65 ;', '&#6_5;', '&x41;', '&#0x41;', '&#6 5;', '& lt;', '&&lt;',
              '&amp;lt;', '&#38;lt;', '&amp;#65;', '&#x26;#65;', '&unknown;', '&é;', '&lt;;']
    return list(dict.fromkeys(every + list(soup(2000))))
