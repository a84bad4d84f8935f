"""What goes in and what comes out, docs/stir.svg, drawn of docs/stir.txt."""
import pathlib
import re
from xml.sax.saxutils import escape

TOP = pathlib.Path(__file__).resolve().parent.parent
TEXT, PICTURE = TOP / 'docs/stir.txt', TOP / 'docs/stir.svg'
LINE = re.compile(r'(?P<kind>title|size|box|arrow) ?(?P<places>[\d ]*?)(?: (?P<look>plain|program|outside))?(?:: (?P<words>.+))?')

# How a box of a kind looks, and the words in it.
LOOKS = {'plain': ('fill="#eef3f8" stroke="#345"', '#123'), 'program': ('fill="#345"', '#fff'),
         'outside': ('fill="#fff8ec" stroke="#b70" stroke-dasharray="6 4"', '#123')}


def lines():
    """The lines of the text: the kind, the places, the look and the words of each."""
    for number, line in enumerate(TEXT.read_text().splitlines(), 1):
        if line.strip() and not line.startswith('#'):
            read = LINE.fullmatch(line)
            if read is None:
                raise ValueError(f'{TEXT}:{number}: {line}')
            yield read['kind'], [int(place) for place in read['places'].split()], read['look'], read['words'] or ''


def box(places, look, words):
    x, y, width, height = places
    shape, ink = LOOKS[look]
    yield f'<rect x="{x}" y="{y}" width="{width}" height="{height}" rx="6" {shape}/>'
    parts = words.split(' / ')
    middle, step = (' text-anchor="middle"', 17) if look == 'program' else ('', 19)
    at, first = (x + width // 2, y + (height - step * (len(parts) - 1)) // 2 + 5) if middle else (x + 14, y + 22)
    for place, part in enumerate(parts):
        how = ' font-weight="bold"' if place == 0 else ' font-size="12"' if middle else ''
        yield f'<text x="{at}" y="{first + place * step}" fill="{ink}"{middle}{how}>{escape(part)}</text>'


def arrow(places, words):
    from_x, from_y, to_x, to_y = places
    yield f'<path d="M{from_x} {from_y} {to_x} {to_y}" fill="none" stroke="#345" stroke-width="2" marker-end="url(#tip)"/>'
    if words:
        said, _, place = words.rpartition(', ')
        x, y = place.split()
        yield f'<text x="{x}" y="{y}" fill="#123">{escape(said)}</text>'


def drawn():
    """The picture, as a text of SVG."""
    title, size, parts = '', '', []
    for kind, places, look, words in lines():
        if kind == 'title':
            title = words
        elif kind == 'size':
            size = words
        else:
            parts += box(places, look, words) if kind == 'box' else arrow(places, words)
    width, height = size.split()
    return '\n'.join([
        f'<svg xmlns="http://www.w3.org/2000/svg" viewBox="0 0 {size}" font-family="sans-serif" font-size="14">', f'<title>{escape(title)}</title>',
        '<defs><marker id="tip" markerWidth="7" markerHeight="6" refX="6" refY="3" orient="auto"><path d="M0 0 7 3 0 6z" fill="#345"/></marker></defs>',
        f'<rect width="{width}" height="{height}" rx="8" fill="#fff"/>', *parts, '</svg>', ''])


def faults(rules):
    """What of the text isn't so: a command that COMMANDS or STIRCTL hasn't, or another count of rules."""
    text = '\n'.join(words for _, _, _, words in lines())
    pages = {'stir': (TOP / 'docs/COMMANDS.md').read_text(), 'stirctl': (TOP / 'docs/STIRCTL.md').read_text()}
    for program, command in sorted(set(re.findall(r'\b(stir|stirctl) (verify|ask|confirm|sign|explain|judge)\b', text))):
        if command not in pages[program]:
            yield f'{TEXT.name}: {program} has no command {command}'
    for count in re.findall(r'(\d+) rules', text):
        if int(count) != rules:
            yield f'{TEXT.name}: {count} rules, where there are {rules}'
    if not PICTURE.exists() or PICTURE.read_text() != drawn():
        yield f'{PICTURE.name} is not the picture of {TEXT.name}: dev/picture draws it'
