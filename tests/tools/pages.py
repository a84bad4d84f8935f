"""The pages that people read: each command that they show is run, in a copy of the tree in which the program stands as the proved one, and what it
writes is compared; no sentence is too long; man/stir.1 is what dev/man makes; docs/RULES.md has the numbers and codes of the library's rules; what
docs/dev/PROVED.md names is there; docs/dev/HEADLINE.md quotes definitions as they stand; the sources keep what the page of dev/refusals promises;
and README.md trusts the crates of the kit that dev/trusted lists.

    pages.py    counts the long sentences of these pages, and names them

A command stands in a block that begins with ```sh, after `$ `, with what it writes below it on the standard output and standard error. A line that
ends with a backslash goes on in the next. The commands of a block run in one shell, and the blocks of a page in one folder. From the first block on
that needs stirctl, a page is tried only if that and the Python package cryptography are there.
"""
import os
import pathlib
import re
import shutil
import subprocess
import sys
import tempfile

sys.path.insert(0, str(pathlib.Path(__file__).resolve().parent.parent))
import refusals  # noqa: E402
import rule_table  # noqa: E402

TOP = pathlib.Path(__file__).resolve().parent.parent.parent
CRATES = TOP / 'crates'

# The program stirctl, as host/build leaves it; else the path may have it.
CTL = TOP / 'host/out/release/stirctl'
PATH = f'{CTL.parent}{os.pathsep}{os.environ["PATH"]}'

# The pages whose commands are run, each with what makes the files of a carrier with which it begins.
CARRIER = 'examples/carrier/day --in . > said 2>&1; cp root.pem roots.pem'
SHOWN = {'README.md': None, 'docs/COMMANDS.md': None, 'docs/OPERATING.md': CARRIER}

# The commands for which stirctl and the Python package cryptography are needed.
NEEDS_MORE = re.compile(r'\bstirctl\b|examples/carrier/day')

# Commands that aren't run here: the gate itself, and the proofs that it makes.
NOT_RUN = ('rt ci', '.ci/run', './stir --prove')

# The pages whose lines and sentences are counted: how many lines they have together at most, and how many words a sentence has at most, and in the middle.
READ = ('README.md', 'CONTRIBUTING.md', 'CHANGELOG.md', 'host/stird/kamailio/README.md', 'python/README.md', 'examples/cluster/README.md',
        'examples/kafka/README.md', *sorted(str(page.relative_to(TOP)) for page in (TOP / 'docs').rglob('*.md')))
MOST_LINES, MOST_WORDS, MIDDLE_WORDS = 3600, 30, 20


def blocks(text):
    """The blocks of commands in a page: the number of the first line, and the lines."""
    block = None
    for number, line in enumerate(text.splitlines(), 1):
        if block is None and line.startswith('```'):
            block, kind, first = [], line[3:], number + 1
        elif block is not None and line.startswith('```'):
            if kind == 'sh':
                yield first, block
            block = None
        elif block is not None:
            block.append(line)


def commands(lines):
    """The commands of a block, each with what it writes; an error if something stands before the first."""
    found, goes_on = [], False
    for line in lines:
        if goes_on:
            found[-1][0] += f'\n{line}'
        elif line.startswith('$ '):
            found.append([line[2:], ''])
        elif found:
            found[-1][1] += f'{line}\n'
        else:
            raise ValueError(f'no command: {line}')
        goes_on = found[-1][1] == '' and found[-1][0].endswith('\\') and (goes_on or line.startswith('$ '))
    return found


def written(given, folder):
    """What each of these commands writes, run in one shell. A zero byte stands after each, and the status stays for the next."""
    script = ''.join(f"{command}\nstatus=$?; printf '\\0'; (exit $status)\n" for command in given)
    done = subprocess.run(['sh'], input=script.encode(), stdout=subprocess.PIPE, stderr=subprocess.STDOUT, cwd=folder, timeout=600,
                          env=os.environ | {'PATH': PATH})
    return [part.decode(errors='replace') for part in done.stdout.split(b'\0')[:-1]]


def tree(program, room):
    """A tree with the script, this program as the proved one, the tools and the examples."""
    refusals.started(program, room)
    for name in ('tools', 'examples'):
        shutil.copytree(TOP / name, room / name, dirs_exist_ok=True)


def tried(page, has_more):
    """The blocks of a page whose commands are run: all, or those before the first that needs more."""
    for first, lines in blocks((TOP / page).read_text()):
        if not has_more and any(map(NEEDS_MORE.search, lines)):
            print(f'tools: the commands of {page} are not tried from line {first} on')
            return
        yield first, lines


def shown(program, has_library):
    """Each block of commands: its name, what is wanted, and what came."""
    has_more = has_library and shutil.which('stirctl', path=PATH) is not None
    for page, before in SHOWN.items():
        with tempfile.TemporaryDirectory() as folder:
            tree(program, pathlib.Path(folder))
            if before and has_more:
                written([before], folder)
            for first, lines in tried(page, has_more):
                given = [(command, output) for command, output in commands(lines) if command not in NOT_RUN]
                yield f'{page}:{first}', [output for _, output in given], written([command for command, _ in given], folder)


def texts(page):
    """The paragraphs, headings, entries of lists and cells of tables of a page, each in one line, without its blocks."""
    page = re.sub(r'^```.*?^```$', '\n', page, flags=re.M | re.S)
    page = re.sub(r'!?\[([^\]]*)\]\([^)]*\)', r'\1', page)
    page = re.sub(r'^ *(?:[-*]|\d+\.) |^#+ ', '\n', page, flags=re.M)
    for part in re.split(r'\n{2,}', page):
        lines = part.strip().splitlines()
        if lines and lines[0].startswith('|'):
            yield from (cell.strip() for line in lines for cell in re.split(r'(?<!\\)\|', line)[1:-1])
        else:
            yield ' '.join(line.strip() for line in lines)


def sentences(page):
    """The sentences of a page."""
    return [it for text in texts(page) for it in re.split(r'(?<=[.?!])[)*"`]*\s+(?=[A-Z`*\[("0-9])', text)]


def long_sentences(page):
    """The sentences of a page that have too many words."""
    return [sentence for sentence in sentences(page) if len(sentence.split()) > MOST_WORDS]


def in_words():
    """How many lines all pages have, and how many words the sentence in the middle has, of those with a full stop."""
    read = [(TOP / page).read_text() for page in READ]
    words = sorted(len(sentence.split()) for page in read for sentence in sentences(page) if re.search(r'[.?!]', sentence[-3:]))
    return sum(len(page.splitlines()) for page in read), words[len(words) // 2]


NAMED = re.compile(r'\b(?:fn|ensures|ghost|struct|enum|trait|record|abbrev pub) (\w+)|^ *pub (\w+) :', re.M)


def named_in(crate):
    """The functions, clauses, types and fields of records that a crate names."""
    files = [*(CRATES / crate / 'src').rglob('*.rt'), *(CRATES / crate / 'specs').rglob('*.antt')]
    return {name for file in files for pair in NAMED.findall(file.read_text()) for name in pair if name}


def missing(crates, clauses, files):
    """What a row of docs/dev/PROVED.md names of these crates and isn't there: a clause, or a file of `specs/`."""
    known = set().union(*map(named_in, crates))
    yield from (f'{crates}: {name}' for words in re.findall(r'`([^`]*)`', clauses) for name in words.split('::') if name not in known)
    for file in re.findall(r'`([^`]*)`', files):
        folders = [file.rpartition('/')[0]] if '/' in file else crates
        if not any((CRATES / folder / 'specs' / f'{file.rpartition("/")[2]}.antt').exists() for folder in folders):
            yield f'{crates}: {file}'


def unknown(page):
    """What the tables of docs/dev/PROVED.md name and isn't there. A row has the crate, or nothing if it is that of the row above, the property, the
    clauses and the files."""
    crates = []
    for line in page.splitlines():
        cells = [cell.strip() for cell in line.split('|')[1:-1]]
        if len(cells) == 4 and cells[0] not in ('Crate', '---'):
            crates = re.findall(r'`(\w+)`', cells[0]) or crates
            yield from missing(crates, *cells[2:])


def other_quotes(page):
    """The definitions in blocks of a page that no file of `specs/` has, word by word."""
    has = ' '.join(' '.join(file.read_text().split()) for file in CRATES.glob('*/specs/*.antt'))
    return [quote for quote in re.findall(r'^```text\n(.*?)^```$', page, re.M | re.S) if ' '.join(quote.split()) not in has]


def results(program, has_library):
    """Each case: its name, what is wanted, and what came."""
    yield from shown(program, has_library)
    for page in READ:
        yield f'{page}, sentences of more than {MOST_WORDS} words', [], long_sentences((TOP / page).read_text())
    lines, words = in_words()
    yield f'at most {MOST_LINES} lines, and {MIDDLE_WORDS} words in the middle: {lines} and {words}', True, lines <= MOST_LINES and words <= MIDDLE_WORDS
    yield 'docs/RULES.md, rules that the library has otherwise', [], rule_table.other_lists()
    yield 'docs/dev/PROVED.md, names that aren\'t there', [], list(unknown((TOP / 'docs/dev/PROVED.md').read_text()))
    yield 'docs/dev/HEADLINE.md, definitions that specs/ has otherwise', [], other_quotes((TOP / 'docs/dev/HEADLINE.md').read_text())
    done = subprocess.run([sys.executable, TOP / 'dev' / 'man', '--check'], stderr=subprocess.PIPE, text=True)
    yield 'dev/man --check', (0, ''), (done.returncode, done.stderr)
    done = subprocess.run([sys.executable, TOP / 'dev' / 'refusals', '--check'], stdout=subprocess.PIPE, text=True)
    yield 'dev/refusals --check', (0, 'refusals: the sources keep what the page promises\n'), (done.returncode, done.stdout)

    done = subprocess.run([sys.executable, TOP / 'dev' / 'picture', '--check'], stdout=subprocess.PIPE, text=True)
    yield 'dev/picture --check', (0, ''), (done.returncode, done.stdout)
    done = subprocess.run([sys.executable, TOP / 'dev' / 'trusted', '--check'], stdout=subprocess.PIPE, text=True)
    yield 'dev/trusted --check', (0, 'trusted: README.md names the crates of the kit that crates.txt names\n'), (done.returncode, done.stdout)


def main():
    found = [(page, sentence) for page in READ for sentence in long_sentences((TOP / page).read_text())]
    for page, sentence in found:
        print(f'{page}: {len(sentence.split())} words: {sentence}')
    lines, words = in_words()
    print(f'pages: {lines} lines; {len(found)} sentences of more than {MOST_WORDS} words, and {words} in the middle')
    return 1 if found else 0


if __name__ == '__main__':
    sys.exit(main())
