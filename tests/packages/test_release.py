"""What a release consists of."""
import json
import re
import subprocess
import tarfile
import tomllib

import pytest
from conftest import TOP


@pytest.fixture
def bill(release):
    """The bill of materials."""
    return json.loads(next(release.glob('*.cdx.json')).read_text())


def test_each_file_has_its_checksum(release):
    done = subprocess.run(['sha256sum', '--check', '--strict', 'SHA256SUMS'], cwd=release, stdout=subprocess.PIPE, stderr=subprocess.STDOUT, text=True)
    assert done.returncode == 0, done.stdout
    named = set(re.findall(r'^(\S+): OK$', done.stdout, re.M))
    assert named == {file.name for file in release.iterdir()} - {'SHA256SUMS'} and len(named) == 10


def test_the_sources_are_those_of_the_commit(release):
    with tarfile.open(next(release.glob('*.tar.gz'))) as archive:
        inside = {name.partition('/')[2] for name in archive.getnames() if '/' in name}
    listed = subprocess.run(['git', '-C', TOP, 'ls-tree', '-r', '--name-only', '-z', 'HEAD'], stdout=subprocess.PIPE, text=True, check=True).stdout
    assert set(listed.split('\0')) - {''} <= inside


def test_the_bill_names_each_crate_of_both_lists(bill):
    names = {(it.get('group', 'cargo'), it['name']) for it in bill['components']}
    proved = re.findall(r'^([a-z0-9_]+)', (TOP / 'crates.txt').read_text(), re.M)
    locked = tomllib.loads((TOP / 'host/Cargo.lock').read_text())['package']
    assert {('stir', name) for name in proved} <= names and ('rattle', 'sha2') in names
    assert {(('cargo' if 'source' in it else 'stir'), it['name']) for it in locked} <= names


def test_the_bill_says_what_depends_on_what(bill):
    refs = [it['bom-ref'] for it in bill['components']] + [bill['metadata']['component']['bom-ref']]
    below = {it['ref']: it['dependsOn'] for it in bill['dependencies']}
    assert len(refs) == len(set(refs)) and set(below) == set(refs)
    assert {name for parts in below.values() for name in parts} <= set(refs)
    reached, left = set(), ['release']
    while left:
        name = left.pop()
        if name not in reached:
            reached.add(name)
            left += below[name]
    assert {'crate:stir', 'crate:stir_c', 'kit:sha2'} <= reached and any(name.startswith('pkg:cargo/openssl@') for name in reached)


def test_the_bill_has_the_form_of_cyclonedx(bill):
    assert (bill['bomFormat'], bill['specVersion'], bill['version']) == ('CycloneDX', '1.4', 1)
    assert re.fullmatch(r'urn:uuid:[0-9a-f]{8}(-[0-9a-f]{4}){3}-[0-9a-f]{12}', bill['serialNumber'])
    assert re.fullmatch(r'\d{4}-\d\d-\d\dT\d\d:\d\d:\d\dZ', bill['metadata']['timestamp'])
    for it in bill['components']:
        assert it['type'] == 'library' and it['name'], it
        assert all(re.fullmatch('[0-9a-f]{64}', found['content']) for found in it.get('hashes', ())), it
