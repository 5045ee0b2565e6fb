"""What was compared: counts for each place, the explained kinds with their smallest input, and the first differences that nothing explains."""
import textwrap


def shown(text, limit=48):
    """A text in ASCII, cut where it is long."""
    if text is None:
        return 'nothing'
    whole = ''.join(c if ' ' <= c <= '~' and c != '\\' else '\\\\' if c == '\\' else '\\u{%X}' % ord(c) for c in text[:limit])
    return '"%s"%s' % (whole, '...' if len(text) > limit else '')


class Tally:
    """A row is a pair of words, the context (or operation) and the place; its counts are compared, same, explained, unexplained."""
    def __init__(self):
        self.rows, self.kinds, self.notes, self.unexplained = {}, {}, [], []

    def compare(self, row, text, held, predicted, kinds):
        """Counts what a browser holds for a text: `predicted` is the text with the changes of the `kinds` that apply, if any does."""
        counts = self.rows.setdefault(row, [0, 0, 0, 0])
        counts[0] += 1
        if held is None or held != predicted:
            counts[3] += 1
            self.unexplained.append((row, text, held, predicted))
            return
        counts[2 if kinds else 1] += 1
        for kind in kinds:
            self.explain(kind, row, (len(kinds), len(text), text))

    def explain(self, kind, row, size):
        """Counts a text under a kind, and keeps the smallest, if it can be one that is of no other kind."""
        count, rows, smallest = self.kinds.get(kind, (0, {}, size))
        rows[row] = rows.get(row, 0) + 1
        self.kinds[kind] = (count + 1, rows, min(smallest, size))

    def show(self):
        """Prints all of it, and returns how many differences nothing explains."""
        print('\n%-14s %-27s %9s %9s %9s %11s' % ('context', 'place', 'compared', 'same', 'explained', 'unexplained'))
        for (context, place), counts in self.rows.items():
            print('%-14s %-27s %9d %9d %9d %11d' % (context, place, *counts))
        print('\nExplained, by kind (a text that is of two kinds counts in both):')
        for kind, (count, rows, smallest) in sorted(self.kinds.items(), key=lambda item: -item[1][0]):
            print('  %6d  %s; smallest input %s' % (count, kind, shown(smallest[2])))
            places = ', '.join('%s %s %d' % (*row, n) for row, n in rows.items())
            print(textwrap.fill(places, 150, initial_indent=' ' * 10, subsequent_indent=' ' * 10))
        print()
        for note in self.notes:
            print(textwrap.fill(note, 160, subsequent_indent='  '))
        self.show_unexplained()
        totals = [sum(counts[k] for counts in self.rows.values()) for k in range(4)]
        print('\n%d compared: %d same, %d explained, %d unexplained' % tuple(totals))
        return totals[3]

    def show_unexplained(self):
        """Prints differences that nothing explains, five for each place: those where the browser holds something first, the shortest first."""
        for row in self.rows:
            found = sorted((item for item in self.unexplained if item[0] == row), key=lambda item: (item[2] is None, len(item[1])))
            if found:
                print('\nUNEXPLAINED in %s, %s: %d' % (*row, len(found)))
            other = row[0] + ' gives' if row[0] in ('browse', 'decode') else 'expected'
            for _, text, held, predicted in found[:5]:
                print('  text %s: the browser holds %s, %s %s' % (shown(text), shown(held), other, shown(predicted)))
