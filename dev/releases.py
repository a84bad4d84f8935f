"""The releases of CHANGELOG.md, and the one that VERSION names."""
import datetime
import re
import textwrap

import outside
from installed import Release
from outside import TOP

MAINTAINER = 'Voilecobble maintainers <maintainers@users.noreply.voilecobble.example>'
NUMBER = r'[0-9]+(\.[0-9]+)*'
HEADING = re.compile(rf'^## ({NUMBER}), (\d{{4}}-\d{{2}}-\d{{2}})$', re.M)


def releases():
    """All, the newest first."""
    text = (TOP / 'CHANGELOG.md').read_text()
    found = list(HEADING.finditer(text))
    ends = [match.start() for match in found[1:]] + [len(text)]
    return [Release(match[1], match[3], text[match.end():end].strip()) for match, end in zip(found, ends)]


def newest():
    """The release of VERSION, which has to be the newest of CHANGELOG.md."""
    number = (TOP / 'VERSION').read_text().strip()
    first = releases()[:1]
    if not re.fullmatch(NUMBER, number):
        raise outside.Fault(f'VERSION is {number!r}, and must be numbers with dots between')
    if not first or first[0].number != number:
        raise outside.Fault(f'VERSION is {number}, and CHANGELOG.md begins with {first[0].number if first else "no release"}')
    return first[0]


def debian(release):
    """All in the form of Debian (deb-changelog(5)); the newest is told as `release`."""
    for it in [release, *releases()[1:]]:
        day = datetime.datetime.fromisoformat(it.date).replace(hour=12, tzinfo=datetime.timezone.utc)
        points = (re.sub(r'\s+', ' ', point).strip() for point in re.split(r'^- ', it.text, flags=re.M)[1:])
        text = '\n'.join(textwrap.fill(point, 78, initial_indent='  * ', subsequent_indent='    ') for point in points)
        yield f'stir ({it.number}) unstable; urgency=medium\n\n{text}\n\n -- {MAINTAINER}  {day:%a, %d %b %Y %H:%M:%S +0000}\n'
