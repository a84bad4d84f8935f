"""The bill of materials of a release, in CycloneDX 1.4: the proved crates and those of the kit below them by crates.txt, and the programs of the host with
the crates that are built into them by host/Cargo.lock."""
import datetime
import json
import re
import tomllib
import uuid

import crates
from outside import TOP

SUM = re.compile(r'[0-9a-f]{64}')


def of_cargo():
    """The crates of host/Cargo.lock as components, and what each depends on."""
    lock = tomllib.loads((TOP / 'host/Cargo.lock').read_text())['package']
    names = {it['name']: [other for other in lock if other['name'] == it['name']] for it in lock}
    for it in lock:
        of = {'purl': cargo_name(it)} if 'source' in it else {'group': 'stir'}
        component = {'type': 'library', 'bom-ref': cargo_name(it), 'name': it['name'], 'version': it['version'], **of}
        if SUM.fullmatch(it.get('checksum', '')):
            component['hashes'] = [{'alg': 'SHA-256', 'content': it['checksum']}]
        wanted = [name.split() for name in it.get('dependencies', ())]
        below = [other for name, *version in wanted for other in names[name] if not version or other['version'] == version[0]]
        yield component, [cargo_name(other) for other in below] + ['crate:stir_c'] * (it['name'] == 'stir-sys')


def cargo_name(package):
    """The name of a crate: that by which registries know it (purl), or one of the host's own."""
    return f'{"pkg:cargo/" if "source" in package else "host:"}{package["name"]}@{package["version"]}'


def of_crates(kit):
    """The proved crates and the kit's as components, and what each depends on. `kit` is the kit's version, if it is known."""
    lines = crates.named()
    for name, parts in lines.items():
        yield {'type': 'library', 'bom-ref': f'crate:{name}', 'group': 'stir', 'name': name}, [reference(part, lines) for part in parts]
    for name in crates.of_the_kit():
        yield {'type': 'library', 'bom-ref': reference(name, lines), 'group': 'rattle', 'name': name, **({'version': kit} if kit else {})}, []


def reference(name, lines):
    return f'crate:{name}' if name in lines else f'kit:{name}'


def written(release, tree, kit, second):
    """The bill as a text in JSON. Its number is that of the tree, so that one tree has one bill."""
    found = [*of_crates(kit), *of_cargo()]
    roots = ['crate:stir', 'crate:stir_c', *(it['bom-ref'] for it, _ in found if it['bom-ref'].startswith(('host:stird@', 'host:stirctl@')))]
    own = {'type': 'application', 'bom-ref': 'release', 'name': 'stir', 'version': release.number}
    moment = datetime.datetime.fromtimestamp(second, datetime.timezone.utc)
    return json.dumps({
        'bomFormat': 'CycloneDX', 'specVersion': '1.4', 'serialNumber': f'urn:uuid:{uuid.uuid5(uuid.NAMESPACE_OID, tree)}', 'version': 1,
        'metadata': {'timestamp': f'{moment:%Y-%m-%dT%H:%M:%SZ}', 'component': own},
        'components': [component for component, _ in found],
        'dependencies': [{'ref': 'release', 'dependsOn': roots}, *({'ref': it['bom-ref'], 'dependsOn': sorted(set(parts))} for it, parts in found)],
    }, indent=1) + '\n'
