"""Makes the packages of what was built: what PROOF says of it, and debhelper's run over all that the packages install."""
import dataclasses
import os
import pathlib
import re
import shutil
import subprocess
import tempfile

import installed
import outside
import proved
import releases

# What the C library consists of: the proved program needs nothing else.
LIBRARIES = {b'libc', b'libm', b'libdl', b'libpthread', b'librt'}

PROOF = """stir {release}: what is known of the programs and libraries in these packages

The gate proved the program and the archive libstir_c.a, built them, and tested
them and all that stands around them. The libraries are linked of the archive,
and stird, stirctl and python3-stir call the shared one; they are not proved.
docs/PACKAGE.md in /usr/share/doc/stir tells how to check these lines, and
README.md there what is proved, what is only tested and what is trusted.

The proved program, by its SHA-256:

{program}  /{places[program]}

The proved archive, and the toolchain's own library, which is trusted:

{archive}  libstir_c.a
{kit}  liblibc_c.a

What rests on this archive, {archive}:

{shared}  /{places[shared]}
{static}  /{places[static]}
{stird}  /{places[stird]}
{stirctl}  /{places[stirctl]}

The sources, by the hash of the tree in git (git rev-parse HEAD^{{tree}}):

{tree}

The toolchain that proved and built them, which is trusted: what rt version
prints, and the sum of its logic as the program has it in itself:

{toolchain}
{logic}

The gate's last lines, written {ended}:

{lines}
"""


def look_at_libraries(program):
    """A fault if the proved program asks for a library beside the C library."""
    others = sorted(set(re.findall(rb'\0(lib[a-z0-9_+-]+)\.so\.[0-9]+(?=\0)', program)) - LIBRARIES)
    if others:
        raise outside.Fault(f'the program needs {others[0].decode()}, and nothing but the C library is told of it')


def logic_of(program, toolchain):
    """What the toolchain wrote into the program of its own logic; a fault if that isn't the logic of this line of `rt version`."""
    found = re.search(rb'rattle (logic=([0-9a-f]{16,}))\0', program)
    named = re.search(r'\blogic ([0-9a-f]{16,})$', toolchain)
    if not found or not named or not found[2].decode().startswith(named[1]):
        raise outside.Fault(f'the program is not one of the toolchain that says {toolchain!r} of itself')
    return found[1].decode()


def recorded():
    """What PROOF says of what the gate has passed."""
    known, program = proved.record(), proved.PROGRAM.read_bytes()
    look_at_libraries(program)
    return {**known, **known['parts'], 'logic': logic_of(program, known['toolchain']), 'lines': '\n'.join(known['lines'])}


def tried():
    """What PROOF says if no gate is asked."""
    proved.look_at_built()
    nothing = {name: 'not asked: this is a trial' for name in ('tree', 'toolchain', 'logic', 'ended', 'lines')}
    return {**nothing, **proved.sums(), 'program': proved.checksum(proved.PROGRAM)}


def moment():
    """The second of the commit."""
    return int(proved.git('log', '-1', '--format=%ct'))


def proof(release, said):
    """The text of PROOF."""
    return PROOF.format(release=release.number, places=installed.PLACES, **said)


def environment(second):
    """What debhelper is run with. Everything in the packages has the moment of the commit, and belongs to root."""
    kept = {name: value for name, value in os.environ.items() if not name.startswith(('DEB_', 'DH_', 'DPKG_'))}
    return kept | {'SOURCE_DATE_EPOCH': str(second), 'DEB_RULES_REQUIRES_ROOT': 'no', 'DEB_BUILD_OPTIONS': 'noautodbgsym', 'LC_ALL': 'C.UTF-8',
                   'PATH': '/usr/sbin:/usr/bin:/sbin:/bin'}


def fill(room, release, said):
    """A folder with all that the packages install in `installed`, and with what Debian's tools ask for."""
    installed.stage(room / 'installed', release)
    installed.copied(proved.TOP / 'packaging/debian', room / 'debian')
    installed.put(room / 'debian/changelog', '\n'.join(releases.debian(release)))
    installed.put(room / 'PROOF', proof(release, said))


def make(release, said, to):
    """Makes the packages in this folder, and returns their files."""
    with tempfile.TemporaryDirectory(prefix='stir-') as folder:
        room = pathlib.Path(folder, f'stir-{release.number}')
        room.mkdir()
        fill(room, release, said)
        done = subprocess.run(['debian/rules', 'binary'], cwd=room, env=environment(moment()), stdin=subprocess.DEVNULL, stdout=subprocess.PIPE,
                              stderr=subprocess.STDOUT, text=True)
        if done.returncode:
            raise outside.Fault(f'debhelper makes no packages: {done.stdout.strip()}')
        to.mkdir(parents=True, exist_ok=True)
        return [pathlib.Path(shutil.copyfile(file, to / file.name)) for file in sorted(pathlib.Path(folder).glob('*.deb'))]


def look_at_debhelper():
    """A fault if what makes packages is missing."""
    for program, package in (('dh', 'debhelper'), ('dh_python3', 'dh-python')):
        if not shutil.which(program):
            raise outside.Fault(f'{program} is missing, which makes packages: apt install {package}')


def made(to, is_trial):
    """Makes the packages of this tree in a folder; their files, the release, and what PROOF says."""
    look_at_debhelper()
    said = tried() if is_trial else recorded()
    release = releases.newest()
    if is_trial:
        release = dataclasses.replace(release, number=f'{release.number}~trial')
    return make(release, said, to), release, said
