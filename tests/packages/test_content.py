"""What is in the packages."""
import hashlib
import pathlib
import re
import shutil
import subprocess
import sys

import pytest
from conftest import TOP, made_by

LIBRARIES = 'usr/lib/x86_64-linux-gnu'
BUILT = {'usr/lib/stir/stir': 'crates/stir/out/stir', 'usr/bin/stirctl': 'host/out/release/stirctl', 'usr/bin/stird': 'host/out/release/stird',
         f'{LIBRARIES}/libstir.so.1': 'host/out/lib/libstir.so.1', f'{LIBRARIES}/libstir.a': 'host/out/lib/libstir.a'}
PAGES = ('man1/stir.1', 'man1/stir-log.1', 'man1/stir-words.1', 'man1/stirctl.1', 'man8/stird.8', 'man5/stird.toml.5')
BASH = 'usr/share/bash-completion/completions'


def output(*words, **others):
    return subprocess.run(words, stdout=subprocess.PIPE, text=True, check=True, **others).stdout


def needs(*names):
    missing = [name for name in names if not shutil.which(name)]
    return pytest.mark.skipif(bool(missing), reason=f'missing: {", ".join(missing)}')


def checksum(file):
    return hashlib.sha256(file.read_bytes()).hexdigest()


def test_they_are_the_same_bytes_if_they_are_made_again(packages, tmp_path):
    again = {file.name: checksum(file) for file in made_by('package', tmp_path).glob('*.deb')}
    assert again == {file.name: checksum(file) for file in packages.values()}


@pytest.mark.parametrize('place', BUILT)
def test_what_was_built_is_there_byte_for_byte(unpacked, place):
    assert checksum(unpacked / place) == checksum(TOP / BUILT[place])


@pytest.mark.parametrize('name, wanted', [
    ('stir', 'libc6 python3'), ('libstir1', 'libc6'), ('libstir-dev', 'libstir1'), ('python3-stir', 'libstir1 python3 python3-cryptography'),
    ('stird', 'libc6 libgcc-s1 libsqlite3-0 libssl3 libstir1'), ('stirctl', 'libc6 libgcc-s1 libssl3 libstir1')])
def test_they_depend_on_what_they_need(packages, name, wanted):
    told = output('dpkg-deb', '--field', packages[name], 'Depends')
    assert sorted(set(re.findall(r'(?:^|, )([a-z0-9-]+)', told))) == wanted.split(), told


@needs('readelf')
def test_the_shared_library_shows_the_functions_of_the_header_and_needs_the_c_library_alone(unpacked):
    library = unpacked / LIBRARIES / 'libstir.so.1'
    told = output('readelf', '--dynamic', '--wide', library)
    assert re.findall(r'\((NEEDED|SONAME)\).*\[(.*)\]', told) == [('NEEDED', 'libc.so.6'), ('SONAME', 'libstir.so.1')]
    assert 'BIND_NOW' in told and 'TEXTREL' not in told
    segments = output('readelf', '--segments', '--wide', library)
    assert 'GNU_RELRO' in segments and re.search(r'GNU_STACK .* RW ', segments)
    symbols = re.findall(r' (?:FUNC|NOTYPE|OBJECT) +GLOBAL +DEFAULT +\d+ (\S+)', output('readelf', '--dyn-syms', '--wide', library))
    declared = re.findall(r'^\w+ \*?(stir_\w+)\(', (TOP / 'include/stir.h').read_text(), re.M)
    assert sorted(symbols) == sorted(f'{name}@@STIR_1' for name in declared)


def test_proof_has_the_sum_of_each_part_and_of_the_archive(unpacked):
    folder = unpacked / 'usr/share/doc'
    proof = (folder / 'stir/PROOF').read_text()
    for name in ('libstir1', 'libstir-dev', 'python3-stir', 'stird', 'stirctl'):
        assert (folder / name / 'PROOF').read_text() == proof, name
    found = {name: digest for digest, name in re.findall(r'^([0-9a-f]{64})  (\S+)$', proof, re.M)}
    assert found == {**{f'/{place}': checksum(unpacked / place) for place in BUILT}, 'libstir_c.a': checksum(TOP / 'crates/stir_c/out/libstir_c.a'),
                     'liblibc_c.a': found['liblibc_c.a']}
    assert f'What rests on this archive, {found["libstir_c.a"]}:' in proof and 'this is a trial' in proof


@needs('cc', 'pkg-config')
@pytest.mark.parametrize('kind', ['shared', 'static'])
def test_a_c_program_is_built_over_the_installed_library(unpacked, tmp_path, kind):
    (tmp_path / 'one.c').write_text('#include <stir.h>\nint main(void) { return stir_abi() == 0; }\n')
    variables = {'PATH': '/usr/bin:/bin', 'PKG_CONFIG_SYSROOT_DIR': str(unpacked), 'PKG_CONFIG_PATH': str(unpacked / LIBRARIES / 'pkgconfig')}
    words = output('pkg-config', '--cflags', '--libs', 'stir', env=variables).split()
    subprocess.run(['cc', 'one.c', *['-static'] * (kind == 'static'), *words, '-o', 'one'], cwd=tmp_path, check=True)
    assert subprocess.run([tmp_path / 'one'], env={'LD_LIBRARY_PATH': str(unpacked / LIBRARIES)}).returncode == 0
    needed = output('readelf', '--dynamic', tmp_path / 'one') if shutil.which('readelf') else kind
    assert ('libstir.so.1' in needed or needed == 'shared') == (kind == 'shared')


@needs('man', 'groff')
@pytest.mark.parametrize('page', PAGES)
def test_pages_are_set_without_a_warning(unpacked, page):
    done = subprocess.run(['man', '--warnings', '-l', unpacked / f'usr/share/man/{page}.gz'], stdout=subprocess.PIPE, stderr=subprocess.PIPE, text=True,
                          env={'PATH': '/usr/bin:/bin', 'LC_ALL': 'C.UTF-8', 'MANWIDTH': '100'})
    assert (done.returncode, done.stderr) == (0, '') and 'NAME' in done.stdout


@needs('man', 'groff')
@pytest.mark.parametrize('page', ['man8/stird.8', 'man5/stird.toml.5'])
def test_pages_of_the_service_have_each_option(unpacked, page):
    said = output(TOP / 'host/out/release/stird', '--help')
    names = set(re.findall(r'^ {2,6}(?:-., )?--([a-z-]+)', said, re.M)) - {'help', 'version', 'config'}
    text = output('man', '-l', unpacked / f'usr/share/man/{page}.gz', env={'PATH': '/usr/bin:/bin', 'LC_ALL': 'C.UTF-8', 'MANWIDTH': '100'})
    pattern = r'^ +--([a-z-]+)' if page.startswith('man8') else r'^ +([a-z-]+) = '
    assert set(re.findall(pattern, text, re.M)) - {'help', 'version', 'config'} == names and len(names) > 30


@pytest.mark.parametrize('words, wanted', [
    ('stir ver', ['verify']), ('stir ask --ta', ['--table']), ('stir sign --form sha', ['shaken']), ('stir verify --table = usr/s', ['usr/share']),
    ('stir-log --x', ['--x5u']), ('stir-log usr/s', ['usr/share']), ('stirctl sho', ['show']), ('stirctl judge --che', ['--checked-by']),
    ('stird --log-', ['--log-file']), ('stird --codes tr', ['trusted'])])
def test_bash_completes(unpacked, words, wanted):
    name, *_ = words = words.split()
    script = (unpacked / BASH / name).read_text()
    function = re.findall(rf'^ *complete -F (\w+) .*\b{name}(?: |$)', script, re.M)[-1]
    how = f'source "$0"; COMP_WORDS=("$@"); COMP_CWORD=$(($# - 1)); {function} {name} "$3"; printf "%s\\n" "${{COMPREPLY[@]}}"'
    done = subprocess.run(['bash', '-c', how, unpacked / BASH / name, *words], stdout=subprocess.PIPE, stderr=subprocess.PIPE, text=True, cwd=unpacked)
    assert (sorted(done.stdout.split()), done.stderr) == (wanted, '')


@needs('zsh')
@pytest.mark.parametrize('name', ['stird', 'stirctl'])
def test_zsh_takes_the_completion(unpacked, name):
    how = f'fpath=("$0" $fpath); autoload -Uz compinit; compinit -D -u; autoload +X _{name}; print "$_comps[{name}]"; whence -w _{name}'
    done = subprocess.run(['zsh', '-f', '-c', how, unpacked / 'usr/share/zsh/vendor-completions'], stdout=subprocess.PIPE, stderr=subprocess.PIPE, text=True)
    assert (done.stdout, done.stderr) == (f'_{name}\n_{name}: function\n', '')


@needs('lintian')
def test_lintian_finds_nothing_that_no_reason_stands_by(packages):
    done = subprocess.run(['lintian', '--fail-on', 'error,warning', '--allow-root', '--no-tag-display-limit', *packages.values()],
                          stdout=subprocess.PIPE, stderr=subprocess.STDOUT, text=True)
    told = [line for line in done.stdout.splitlines() if re.match(r'[EW]: ', line)]
    assert (done.returncode, told) == (0, [])


def test_tools_of_those_who_work_on_the_sources_stay_outside(unpacked):
    inside = {file.name for file in (unpacked / 'usr/share/stir/tools').iterdir()}
    own = {file.name for file in (TOP / 'dev').iterdir() if file.is_file()}
    assert not inside & own and {'stir-log', 'stir-words', 'outside.py'} <= inside


@pytest.mark.parametrize('tool', sorted(file.name for file in (TOP / 'tools').glob('stir-*') if file.name != 'stir-words'))
def test_tools_tell_their_words_by_their_own_names(unpacked, tool):
    done = subprocess.run([sys.executable, pathlib.Path(unpacked, 'usr/bin', tool), '--help'], stdout=subprocess.PIPE, stderr=subprocess.PIPE, text=True)
    assert (done.returncode, done.stderr) == (0, '') and f'    {tool} ' in done.stdout and f'tools/{tool}' not in done.stdout
