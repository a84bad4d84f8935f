"""A P-Asserted-Identity field with two values (RFC 3325, section 9.1): what stir-log writes of it is judged as two fields are, by the number that is
asserted. The call is that of examples/calls, whose PASSporT is of 12155551212."""
import pathlib
import subprocess
import tempfile

EXAMPLES = pathlib.Path(__file__).resolve().parent.parent.parent / 'examples'
FILES = [word for name in ('chains.txt', 'anchors.der', 'table.txt', 'answers.txt') for word in (f'--{name.split(".")[0]}', f'examples/files/{name}')]
PBX = '<sip:pbx@example.org>'

# What is asserted, From's number, and the verdict: rule 7 wants the asserted number to be the PASSporT's (RFC 8224, section 8.1; RFC 3261, section 7.3.1).
JUDGED = [(f'{PBX}, <tel:+19995550000>', '12155551212', 'refused 438 7 1.0'),
          (f'{PBX}, <tel:+12155551212>', '12155559999', 'valid - - -'),
          (f'"a, b" {PBX} , "<tel:+1>" <tel:+12155551212>', '12155559999', 'valid - - -')]


def message(asserted, caller):
    """The second of the example call, and the call with this P-Asserted-Identity and this number in From."""
    header, _, text = (EXAMPLES / 'calls' / '1-full-form.log').read_bytes().partition(b'\n')
    lines = [line for line in text.split(b'\r\n') if not line.startswith((b'From:', b'P-Asserted-Identity:'))]
    lines[1:1] = [f'From: <sip:+{caller}@example.org>;tag=1'.encode(), f'P-Asserted-Identity: {asserted}'.encode()]
    return header.split()[0].removeprefix(b'@'), b'\r\n'.join(lines)


def results(tool, program):
    """Each case: its name, what is wanted, and what came."""
    with tempfile.TemporaryDirectory() as folder:
        room = pathlib.Path(folder)
        for asserted, caller, verdict in JUDGED:
            moment, text = message(asserted, caller)
            (room / 'call.sip').write_bytes(text)
            status, log, said = tool(['stir-log'], moment + b' call.sip\n', room)
            yield f'stir-log, {asserted}', (0, 'stir-log: calls 1; P-Asserted-Identity fields split: 1\n'), (status, said)
            done = subprocess.run([program, 'verify', *FILES], cwd=EXAMPLES.parent, input=log, stdout=subprocess.PIPE, check=False)
            yield f'the verdict, {asserted}', f'1 {verdict}\n'.encode(), done.stdout
