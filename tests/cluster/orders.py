"""Messages that the package signs, beside what the proved program signs."""
import subprocess

import stir
from world import START

ORIGID = "00000000-0000-4000-8000-00000000abcd"
DEST = "13105550100"


def order(world, n, caller, form=stir.Form.SHAKEN_A):
    """An INVITE of this caller to be signed by the n-th certificate."""
    table, leaf = (world.folder / "table.txt").read_bytes(), (world.folder / f"leaf-{n}.der").read_bytes()
    return stir.Order(world.invite(caller, DEST, 7), form, START, world.x5u(n), leaf, table, ORIGID)


def by_program(program, world, n, given, folder, signature):
    """What `stir sign` writes for the same order, with this signature among its answers."""
    (folder / "signs.txt").write_text(f"sign k {stir.to_sign(given).hex()} {signature.hex()}\n" if signature else "")
    words = ["--key", "k", "--x5u", given.x5u, "--iat", str(given.iat), "--answers", folder / "signs.txt"]
    words += ["--leaf", world.folder / f"leaf-{n}.der", "--table", world.folder / "table.txt"]
    forms = {stir.Form.BASE: ["base"], stir.Form.SHAKEN_A: ["shaken", "--attest", "A"], stir.Form.SHAKEN_B: ["shaken", "--attest", "B"]}
    words += ["--form", *forms[given.form], *(["--origid", given.origid] if given.form != stir.Form.BASE else [])]
    return subprocess.run([program, "sign", *words], input=given.message, stdout=subprocess.PIPE, check=False).stdout


def signed(program, world, folder):
    """What is signed is what the program writes, and passes."""
    by = stir.World.read(*world.words()[1::2])
    for n, form in ((0, stir.Form.SHAKEN_A), (1, stir.Form.SHAKEN_B), (2, stir.Form.BASE)):
        given = order(world, n, world.number(n, 5), form)
        signature = stir.signer_by(world.keys[n])(stir.to_sign(given))
        message = stir.signed(given, signature)
        assert message == by_program(program, world, n, given, folder, signature), f"{form.name}: the program writes another message"
        call = stir.Call(START, message)
        verdict = stir.verify(call, by, stir.confirm)
        assert isinstance(verdict, stir.Passes), f"{form.name}: {verdict}"
        call = stir.Call(START, stir.sign(given, stir.signer_by(world.keys[n + 1])))
        assert stir.verify(call, by, stir.confirm) == stir.Refused(16, 438, 1, 0), f"{form.name}: another key's signature isn't refused"


def withheld(program, world, folder):
    """What may not be signed isn't, for the program's reason."""
    good = order(world, 0, world.number(0, 5))
    cases = [
        (order(world, 0, world.number(1, 5)), stir.Why.AUTHORITY),
        (order(world, 0, "x"), stir.Why.NO_NUMBER),
        (stir.Order(b"hello", good.form, good.iat, good.x5u, good.certificate, good.table, good.origid), stir.Why.FORM),
    ]
    for given, why in cases:
        said = by_program(program, world, 0, given, folder, b"")
        assert said == b"sign fault %d\n" % why, f"{why.name}: the program says {said}"
        for attempt in (lambda: stir.to_sign(given), lambda: stir.signed(given, bytes(64))):
            try:
                attempt()
            except stir.Withheld as error:
                assert error.why == why, f"{error.why.name} and not {why.name}"
            else:
                raise AssertionError(f"{why.name}: it was signed")
    for changed, name in (({"certificate": b"x"}, "CERTIFICATE"), ({"origid": "x"}, "ORDER"), ({"x5u": ""}, "ORDER"), ({"table": b"a b c\n"}, "TABLE")):
        try:
            stir.to_sign(stir.Order(**{**{field: getattr(good, field) for field in good.__dataclass_fields__}, **changed}))
        except stir.BadInput as error:
            assert error.input == stir.Input[name], f"{error.input.name} and not {name}"
        else:
            raise AssertionError(f"{changed} was taken")
