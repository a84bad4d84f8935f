"""What stands where in the packages, made of this tree: the programs, the libraries, the tools that a user needs, their pages and completions, the examples
and the documents. packaging/debian says which package has what."""
import ast
import dataclasses
import gzip
import os
import re
import subprocess
import sys

import completion
import manual
from proved import BUILT, PROGRAM, TOP

# Where the tools stand as in the repository, with `stir` and `examples` beside `tools`: each finds the others as it does there.
SHARED = 'usr/share/stir'
DOCUMENTS = 'usr/share/doc/stir'
PAGES = 'usr/share/man'
TRIPLET = 'x86_64-linux-gnu'
LIBRARIES = f'usr/lib/{TRIPLET}'
COMPLETIONS = {'bash': ('usr/share/bash-completion/completions', ''), 'zsh': ('usr/share/zsh/vendor-completions', '_')}

# Where each part stands that is proved or rests on what is.
PLACES = {'program': 'usr/lib/stir/stir', 'shared': f'{LIBRARIES}/libstir.so.1', 'static': f'{LIBRARIES}/libstir.a', 'stird': 'usr/bin/stird',
          'stirctl': 'usr/bin/stirctl'}

# What stands beside the tools in the repository and is read.
TEXTS = ('README.md', 'CONTRIBUTING.md', 'docs')

# What else the service has, if it is in the tree, and where it stands.
OF_STIRD = {'packaging/stird.toml': 'etc/stird/stird.toml', 'packaging/chains.txt': 'etc/stird/chains.txt',
            'packaging/monitoring': 'usr/share/stird/monitoring', 'host/stird/kamailio': 'usr/share/doc/stird/examples/kamailio'}
UNITS = 'lib/systemd/system'

# Debian's own interpreter, for which python3-cryptography is installed.
ASKED = re.compile(rb'\A#!/usr/bin/env python3\n')
INTERPRETER = b'#!/usr/bin/python3\n'


@dataclasses.dataclass(frozen=True)
class Release:
    number: str
    date: str
    text: str = ''


def tools():
    """The tools of a user, by their names."""
    return sorted(path.name for path in (TOP / 'tools').glob('stir-*'))


def modules(names):
    """The modules beside the tools that these need, directly or by others."""
    found, left = [], list(names)
    while left:
        for node in ast.walk(ast.parse((TOP / 'tools' / left.pop()).read_text())):
            named = [part.name for part in node.names] if isinstance(node, ast.Import) else [node.module] if isinstance(node, ast.ImportFrom) else []
            for file in (f'{name}.py' for name in named):
                if file not in found and (TOP / 'tools' / file).exists():
                    found.append(file)
                    left.append(file)
    return sorted(found)


def put(path, data, mode=0o644):
    path.parent.mkdir(parents=True, exist_ok=True)
    path.write_bytes(data.encode() if isinstance(data, str) else data)
    path.chmod(mode)


def link(path, to):
    path.parent.mkdir(parents=True, exist_ok=True)
    path.symlink_to(to)


def packed(data):
    return gzip.compress(data, 9, mtime=0)


def copied(source, to):
    """A file or a folder as the tree has it, but for the interpreter that a script asks for. What may be executed stays so."""
    for file in [source] if source.is_file() else sorted(path for path in source.rglob('*') if path.is_file() and '__pycache__' not in path.parts):
        put(to / file.relative_to(source) if source.is_dir() else to, ASKED.sub(INTERPRETER, file.read_bytes()),
            0o755 if os.access(file, os.X_OK) else 0o644)


def help_of(tool):
    """What a tool says of its words, in lines as long as they are; None if it has no `--help`. Without what is installed beside the interpreter
    (-S) it starts in a fifth of the time."""
    if 'outside.Words(' not in tool.read_text():
        return None
    environment = os.environ | {'COLUMNS': '1000', 'PYTHONDONTWRITEBYTECODE': '1'}
    return subprocess.run([sys.executable, '-S', tool, '--help'], stdout=subprocess.PIPE, text=True, env=environment, check=True).stdout


def page(tool, said, release):
    text = '' if said else ast.get_docstring(ast.parse(tool.read_text())).replace(f'tools/{tool.name}', tool.name)
    return manual.page(tool.name, said or f'usage: {tool.name} WORD..', text, release.number, release.date)


def add_tools(root, release):
    """The tools with what they need, a page of each that has none in man/, and their completion."""
    options = {}
    completions = root / COMPLETIONS['bash'][0]
    for name in tools() + modules(tools()):
        copied(TOP / 'tools' / name, root / SHARED / 'tools' / name)
    for name in tools():
        tool = root / SHARED / 'tools' / name
        link(root / 'usr/bin' / name, f'../share/stir/tools/{name}')
        said = help_of(tool)
        if said:
            options[name] = re.findall(r'^  (?:-h, )?(--[a-z0-9-]+)', said, re.M)
        if not (TOP / 'man' / f'{name}.1').exists():
            put(root / PAGES / 'man1' / f'{name}.1', page(tool, said, release))
    put(completions / 'stir', completion.bash(options))
    for name in tools():
        link(completions / name, 'stir')


def synopsis():
    """What `stir --help` writes: that of the repository without what needs the toolchain."""
    text = re.search(r'^## Synopsis\n+```\n(.*?)```', (TOP / 'docs/COMMANDS.md').read_text(), re.M | re.S)[1]
    lines = [line.removeprefix('./') for line in text.splitlines() if '--prove' not in line]
    return '\n'.join([*lines, 'man stir shows the commands, and /usr/share/doc/stir/README.md what they are for', ''])


def add_documents(root):
    """The pages, and the documents with the folders in which their links find each other."""
    for file in sorted((TOP / 'man').glob('*.1')):
        put(root / PAGES / 'man1' / file.name, file.read_bytes())
        copied(file, root / SHARED / 'man' / file.name)
    for name in TEXTS:
        copied(TOP / name, root / DOCUMENTS / name)
        link(root / SHARED / name, f'../doc/stir/{name}')


def add_program(root, release):
    """The proved program, what starts it, the tools, the examples and the documents."""
    put(root / PLACES['program'], PROGRAM.read_bytes(), 0o755)
    put(root / 'usr/bin/stir', (TOP / 'packaging/stir').read_text().replace('@VERSION@', release.number), 0o755)
    put(root / SHARED / 'synopsis', synopsis())
    copied(TOP / 'examples', root / SHARED / 'examples')
    add_documents(root)
    add_tools(root, release)
    link(root / SHARED / 'stir', '../../bin/stir')
    link(root / DOCUMENTS / 'examples', '../../stir/examples')


def said_by(program, *words):
    """What a program of the host writes."""
    return subprocess.run([BUILT[program], *words], stdin=subprocess.DEVNULL, stdout=subprocess.PIPE, text=True, check=True).stdout


def add_completions(root, program, *words):
    """The completions of a program, which it writes itself, by the words before the shell's name."""
    for shell, (folder, before) in COMPLETIONS.items():
        put(root / folder / f'{before}{program}', said_by(program, *words, shell))


def add_ctl(root, release):
    """stirctl, with a page of what its commands say of their words, and its completions."""
    put(root / PLACES['stirctl'], BUILT['stirctl'].read_bytes(), 0o755)
    said = said_by('stirctl', '--help')
    commands = {name: said_by('stirctl', name, '--help') for name in re.findall(r'^  ([a-z]+)  ', said, re.M) if name != 'help'}
    put(root / PAGES / 'man1/stirctl.1', manual.page_of_commands('stirctl', said, commands, release.number, release.date))
    add_completions(root, 'stirctl', 'completion')


def add_service(root, release):
    """stird, with pages of its words and of its settings, its completions, units, settings and what watches it."""
    put(root / PLACES['stird'], BUILT['stird'].read_bytes(), 0o755)
    said = said_by('stird', '--help')
    put(root / PAGES / 'man8/stird.8', manual.page_of_service('stird', said, release.number, release.date))
    put(root / PAGES / 'man5/stird.toml.5', manual.page_of_settings('stird', said, release.number, release.date))
    add_completions(root, 'stird', '--completion')
    for place in ('etc/stird', 'usr/share/stird'):
        (root / place).mkdir(parents=True, exist_ok=True)
    for name, place in OF_STIRD.items():
        if (TOP / name).exists():
            copied(TOP / name, root / place)
    for file in sorted((TOP / 'packaging/systemd').iterdir()):
        if file.suffix in ('.service', '.socket', '.timer'):
            copied(file, root / UNITS / file.name)


def add_libraries(root, release):
    """The shared library and what it takes to build over it, and the Python package."""
    for part in ('shared', 'static'):
        put(root / PLACES[part], BUILT[part].read_bytes())
    link(root / LIBRARIES / 'libstir.so', 'libstir.so.1')
    copied(TOP / 'include/stir.h', root / 'usr/include/stir.h')
    text = (TOP / 'packaging/stir.pc').read_text().replace('@VERSION@', release.number).replace('@TRIPLET@', TRIPLET)
    put(root / LIBRARIES / 'pkgconfig/stir.pc', text)
    python = root / 'usr/lib/python3/dist-packages/stir'
    for file in sorted((TOP / 'python/stir').iterdir()):
        if file.suffix == '.py' or file.name == 'py.typed':
            copied(file, python / file.name)
    link(python / 'libstir.so', f'../../../{TRIPLET}/libstir.so.1')


def stage(root, release):
    """Puts into an empty folder what the packages install, except for what is said of this release."""
    add_program(root, release)
    add_ctl(root, release)
    add_service(root, release)
    add_libraries(root, release)
