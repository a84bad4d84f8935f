"""The manual pages of what is around the proved program, made of what each says of its words: of a tool by argparse, or of its own text where it has no
`--help`; and of a program by clap, with commands, or with options that a file of settings has too."""
import dataclasses
import re

SECTIONS = {'positional arguments': 'ARGUMENTS', 'options': 'OPTIONS'}


def escaped(text):
    """A line of text in roff: hyphens stay hyphens, and no line is a request."""
    text = text.replace('\\', '\\e').replace('-', '\\-')
    return f'\\&{text}' if text.startswith(('.', "'")) else text


def body(text):
    """Paragraphs, and what is indented as it stands."""
    for part in re.split(r'\n\s*\n', text.strip('\n')):
        lines = part.split('\n')
        if lines[0].startswith('    '):
            yield from ('.PP', '.RS 4', '.EX', *(escaped(line[4:]) for line in lines), '.EE', '.RE')
        else:
            yield from ('.PP', *(escaped(line.strip()) for line in lines))


def words(text):
    """The options or arguments of a tool: in `--help` each begins after two blanks, and what it means stands after at least two more."""
    for part in re.split(r'\n  (?=\S)', f'\n{text}')[1:]:
        name, _, meaning = re.sub(r'\s*\n\s*', '  ', part.strip()).partition('  ')
        yield from ('.TP', f'.B {escaped(name)}', escaped(re.sub(r'\s+', ' ', meaning).strip()))


def parts_of(said):
    """What `--help` says: the usage, the text, and the sections behind it by their titles."""
    usage, _, rest = said.removeprefix('usage: ').partition('\n\n')
    text, *others = re.split(rf'^({"|".join(SECTIONS)}):\n', rest, flags=re.M)
    return re.sub(r'\s+', ' ', usage), text, dict(zip(others[::2], others[1::2]))


def page(name, said, text, release, date):
    """The page of a tool, of what its `--help` says; if it has none, `said` is its usage alone, and `text` its own text."""
    usage, own, sections = parts_of(said)
    text = text or own
    sentence = re.match(r'(.+?)[.;](\s|$)', text, re.S)[1]
    what = re.sub(r'\s+', ' ', sentence)
    lines = [f'.TH {name.upper()} 1 {date} "stir {release}" "User Commands"',
             '.SH NAME', f'{escaped(name)} \\- {escaped(what[0].lower() + what[1:])}',
             '.SH SYNOPSIS', f'.B {escaped(name)}', escaped(usage.removeprefix(name).strip()), '.SH DESCRIPTION', *list(body(text))]
    for title, shown in SECTIONS.items():
        if title in sections:
            lines += [f'.SH {shown}', *words(sections[title])]
    return '\n'.join(lines + ['.SH SEE ALSO', '.BR stir (1)', '.PP', 'The pages in /usr/share/doc/stir/docs, above all OPERATING.md.', ''])


def page_of_commands(name, said, commands, release, date):
    """The page of a program, of what its `--help` says and, by their names, its commands'."""
    text, _, _ = said.partition('\nUsage: ')
    sentence = re.match(r'(.+?)[.:;](\s|$)', text, re.S)[1]
    what = re.sub(r'\s+', ' ', sentence)
    lines = [f'.TH {name.upper()} 1 {date} "stir {release}" "User Commands"', '.SH NAME', f'{escaped(name)} \\- {escaped(what[0].lower() + what[1:])}',
             '.SH SYNOPSIS', f'.B {escaped(name)}', 'COMMAND WORD..', '.SH DESCRIPTION', *body(text)]
    for command, told in commands.items():
        lines += [f'.SH {name.upper()} {command.upper()}', '.EX', *map(escaped, told.rstrip().split('\n')), '.EE']
    return '\n'.join(lines + ['.SH SEE ALSO', '.BR stir (1)', '.PP', 'The pages in /usr/share/doc/stir/docs, above all STIRCTL.md and OPERATING.md.', ''])


@dataclasses.dataclass(frozen=True)
class Option:
    """An option as clap's `--help` tells it."""
    names: str
    name: str
    value: str
    meaning: str
    default: str
    choices: str


def options_of(said):
    """The options of a program, by its long `--help`: each begins its line, and what it means stands below, further in."""
    for part in re.split(r'^ {2,6}(?=-)', said.partition('\nOptions:\n')[2], flags=re.M)[1:]:
        names, _, below = part.partition('\n')
        text = re.sub(r'\s+', ' ', below).strip()
        found = {word: re.search(rf'\[{word}: ([^\]]*)\]', text) for word in ('default', 'possible values')}
        yield Option(names.strip(), re.search(r'--([a-z-]+)', names)[1], ''.join(re.findall(r'<([^>]*)>', names)),
                     re.sub(r' ?\[(default|possible values): [^\]]*\]', '', text), *(it[1] if it else '' for it in found.values()))


def told(option):
    """What an option means, what it may be, and what it is if it isn't given."""
    yield escaped(option.meaning) + '.'
    if option.choices:
        yield f'One of {escaped(option.choices)}.'
    if option.default:
        yield f'If it isn\'t given it is {escaped(option.default)}.'


def heading(name, section, release, date, what):
    title = {5: 'File Formats', 8: 'System Administration'}[section]
    return [f'.TH {name.upper()} {section} {date} "stir {release}" "{title}"', '.SH NAME', f'{escaped(name)} \\- {escaped(what)}']


def page_of_service(name, said, release, date):
    """The page of a service, of what its `--help` says."""
    text, _, _ = said.partition('\nUsage: ')
    first, _, rest = text.partition('\n\n')
    lines = [*heading(name, 8, release, date, first.strip().rstrip('.').removeprefix('A ')), '.SH SYNOPSIS', f'.B {name}', '[OPTION VALUE]..',
             '.SH DESCRIPTION', *body(rest), '.SH OPTIONS']
    for option in options_of(said):
        lines += ['.TP', f'.B {escaped(option.names)}', *told(option)]
    lines += ['.SH SIGNALS', '.TP', '.B SIGHUP', 'Read the files anew.', '.TP', '.B SIGTERM', 'Answer what is under way, and end.',
              '.SH FILES', '.TP', f'.I /etc/{name}/{name}.toml', f'The settings of the unit: see {name}.toml(5).']
    return '\n'.join([*lines, '.SH SEE ALSO', f'.BR {name}.toml (5),', '.BR stirctl (1)', '.PP',
                      'The pages in /usr/share/doc/stir/docs, above all SERVICE.md and SIGNING.md.', ''])


def page_of_settings(name, said, release, date):
    """The page of a file of settings, which has the options of `--help` by their names."""
    lines = [*heading(f'{name}.toml', 5, release, date, f'the settings of {name}'), '.SH DESCRIPTION',
             'The file is TOML. Each line has the name of an option, without its hyphens, and its value: a text, a number, true or false (yes or no), or a',
             'list of these for an option that may be given several times. An option of the command line goes before its line here.',
             '.SH EXAMPLE', '.EX', 'listen = ["127.0.0.1:8080", "unix:/run/stird/socket"]', 'roots = "/etc/stird/roots.pem"', '.EE', '.SH SETTINGS']
    for option in options_of(said):
        if option.name not in ('config', 'help', 'version'):
            lines += ['.TP', f'.B {escaped(option.name)} = {escaped(option.value)}', *told(option)]
    return '\n'.join([*lines, '.SH SEE ALSO', f'.BR {name} (8)', ''])
