"""Tries the library's C header on a world of real keys; tests/before does so with the service.

What the crate `stir` answers must give the report of the program byte for byte (`--judge`, `--program`). `--library` names the folder of libstir_c.a, for
the C programs and for Python's ctypes. `--calls` and `--chains` say how large the world is. Times are measured here, so it runs without `-n`.
"""
import dataclasses
import pathlib

import fields
import header
import pytest
import same
import sending
from judged import TOP, Judged


@dataclasses.dataclass(frozen=True)
class Place(Judged):
    """What the tests share: a judged world, and the library and the program over it."""
    library: pathlib.Path
    judge: pathlib.Path


@pytest.fixture(scope="session")
def at(request, program, tmp_path_factory):
    given = request.config.getoption
    return Place.of(request, program, tmp_path_factory.mktemp("service"), library=given("library").resolve(), judge=given("judge").resolve())


TESTS = {
    "the library says of each case of verify and explain what the program says": lambda at: same.rows(at.judge),
    "the library says of the log what the program says": lambda at: same.log(at.judge, at.stir, at.world, at.calls, at.folder),
    "a C program judges and explains by the header": lambda at: header.by_c(TOP, at.stir, at.library, at.world, at.folder),
    "the example in the header compiles": lambda at: header.example_in_header(TOP, at.library, at.folder),
    "four threads in C share, judge, send on, fetch and close at once": lambda at: header.shared_by_c(TOP, at.stir, at.library, at.world, at.folder),
    "a C program signs by the header": lambda at: header.signed_by_c(TOP, at.stir, at.library, at.world, at.folder),
    "header fields are found by their names": lambda at: fields.all(at.library, at.world, at.folder),
    "calls are sent on with real keys, and are valid at the next hop": lambda at: sending.all(at.stir, at.library, at.world, at.folder),
    "Python judges and signs by ctypes": lambda at: header.by_python(TOP, at.library, at.world, at.calls, at.report, at.folder),
}


@pytest.mark.parametrize("what", TESTS)
def test_service(what, at, says):
    says(TESTS[what](at))
