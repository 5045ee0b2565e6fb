"""A page of a lift's journey log, as a fitter's tablet shows it. Every text on it is written by the library, each in the context of its place."""

LIFT = 'Lift 2 · Harbour "North" & South'
NOTE = "9 events since 08:00 — door <B> serviced by O'Neill & Sons"
COLUMNS = ['Time', 'Landing', 'Name', 'Event']
ROWS = [
    ('08:02:11', '0', 'Lobby', 'doors open'),
    ('08:02:40', '1', "Mum & Dad's", 'arrived'),
    ('08:03:05', '2', 'The "Crow\'s Nest" <Ltd>', 'call answered'),
    ('08:04:19', '3', 'Flat 3, second door\nring twice', 'arrived'),
    ('08:05:52', '4', 'مكتب الصيانة ٤', 'call answered'),
    ('08:06:30', '5', 'בית הספר "אורט"', 'arrived'),
    ('08:07:44', '6', 'Zoë\'s Café 🥐', 'doors open'),
    ('08:09:01', '7', '</script> & &lt;b&gt;', 'arrived'),
    ('08:10:27', '8', '1½ m² roof garden 🌿', 'door blocked'),
]
COLOURS = {'arrived': '#1b7f4d', 'doors open': '#2a66b8', 'call answered': '#5b6470', 'door blocked': '#b3401f'}
SIZE = (940, 575)

STYLE = '''
body { margin: 0; background: #eef1f4; color: #1d2733; font: 17px "DejaVu Sans", "Noto Color Emoji", sans-serif }
header { background: #16324f; color: #fff; padding: 18px 28px 16px }
h1 { margin: 0 0 4px; font-size: 25px; font-weight: bold }
h1 + div { color: #b9cbe0; font-size: 15px }
h1 + div::before { content: "%s" }
table { width: calc(100%% - 56px); margin: 20px 28px 14px; border-collapse: collapse; background: #fff; box-shadow: 0 1px 4px #0003 }
th { text-align: left; font-size: 13px; color: #5b6470; background: #f7f9fb; padding: 10px 16px; border-bottom: 2px solid #d6dde5 }
td { padding: 9px 16px; border-bottom: 1px solid #e6ebf0; white-space: pre-wrap; unicode-bidi: plaintext; vertical-align: top }
td:nth-child(1) { font-variant-numeric: tabular-nums; color: #5b6470 }
td:nth-child(2) { width: 70px }
td:nth-child(3) { font-weight: bold; width: 380px }
td:nth-child(4) { border-left: 5px solid var(--event) }
footer { padding: 0 28px; font-size: 14px; color: #5b6470 }
'''


def journey(library):
    """The page's head and body, and the texts of its elements a0, a1 and so on."""
    def write(context, text):
        return (library.call('encode', context, [text.encode()])[0] or b'').decode(errors='replace')

    texts, body = ['Journey log'], '<header><h1 id=a0>%s</h1><div></div></header><table><tr>' % write('text', 'Journey log')
    for column in COLUMNS:
        body += '<th>' + write('text_minimal', column)
    for row in ROWS:
        body += '<tr style="--event: %s" title=%s>' % (write('double_quoted', COLOURS[row[3]]), write('unquoted', row[2]))
        for cell, context in zip(row, ('text_minimal', 'text', 'safe', 'text')):
            body += '<td id=a%d>%s</td>' % (len(texts), write(context, cell))
            texts.append(cell)
    body += "</table><footer id=a%d></footer><script>document.getElementById('a%d').textContent = '%s';</script>" % (
        len(texts), len(texts), write('script_single', NOTE))
    return '<style>%s</style>' % (STYLE % write('style_double', LIFT)), body, texts + [NOTE]
