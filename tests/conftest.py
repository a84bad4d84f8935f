"""What the tests of cli, tools, service and cluster share: the programs that they are run on, and how a case is told.

    python3 -m pytest [-n auto] [--program STIR] [-v] tests/FOLDER

Each folder is run by itself (names of modules are used twice). `-v` writes the name and the time of each case. What fails is told with what was wanted
and what came. `-n auto` runs cases side by side; service and cluster measure times, and are run without it.
"""
import pathlib
import time

import pytest

TOP = pathlib.Path(__file__).resolve().parent.parent

# So much of what was wanted, and of what came, is told.
TOLD = 4000


def pytest_addoption(parser):
    group = parser.getgroup('stir')
    group.addoption('--program', type=pathlib.Path, default=TOP / 'crates/stir/out/stir', help='the program (crates/stir/out/stir)')
    group.addoption('--stird', type=pathlib.Path, default=TOP / 'host/out/release/stird', help='the service (host/out/release/stird)')
    group.addoption('--ctl', type=pathlib.Path, default=TOP / 'host/out/release/stirctl', help='the program stirctl (host/out/release/stirctl)')
    group.addoption('--judge', type=pathlib.Path, default=TOP / 'host/out/release/examples/judge', help='the example of host/stir that judges logs')
    group.addoption('--library', type=pathlib.Path, default=TOP / 'crates/stir_c/out', help='the folder of libstir_c.a (crates/stir_c/out)')
    group.addoption('--keys', type=int, default=10, help='how many keys and messages go through openssl (10)')
    group.addoption('--calls', type=int, help='how many calls the world has')
    group.addoption('--chains', type=int, default=20, help='how many chains the world has (20)')


@pytest.fixture(scope='session')
def program(request):
    return request.config.getoption('program').resolve()


def told(wanted, got):
    return f'wanted {str(wanted)[:TOLD]}\ngot    {str(got)[:TOLD]}'


@pytest.fixture
def equal():
    """Fails a test with what was given, what was wanted and what came, if the last two differ."""
    def look(wanted, got, given):
        if wanted != got:
            pytest.fail(f'given  {str(given)[:TOLD]}\n{told(wanted, got)}', pytrace=False)
    return look


@pytest.fixture
def each(request):
    """Has each case of a test, its name, what is wanted and what came, reported as a test of its own."""
    def look(cases):
        found, begun = [], time.monotonic()
        request.node.user_properties.append(('cases', found))
        for name, wanted, got in cases:
            found.append((name, time.monotonic() - begun, None if wanted == got else told(wanted, got)))
            begun = time.monotonic()
        assert found, 'no case'
    return look


@pytest.fixture
def says(request):
    """Tells what a test says of itself after its time; one that says that it is left out is skipped."""
    def look(said):
        if said and said.startswith('left out'):
            pytest.skip(said)
        request.node.user_properties.append(('said', said or ''))
    return look


def cases_of(report):
    return dict(report.user_properties).get('cases', ()) if report.when == 'call' else ()


class Reporter:
    """Reports the cases of a test, in the process that writes."""

    def __init__(self, config):
        self.config = config

    def pytest_runtest_logreport(self, report):
        for name, seconds, fault in cases_of(report):
            self.config.hook.pytest_runtest_logreport(report=pytest.TestReport(
                f'{report.nodeid}::{name}', report.location, {}, 'failed' if fault else 'passed', fault and f'{name}:\n{fault}', 'call', duration=seconds))


def pytest_configure(config):
    # With xdist the workers hand their reports to one process, which writes.
    if not hasattr(config, 'workerinput'):
        config.pluginmanager.register(Reporter(config))


def pytest_report_teststatus(report, config):
    """The time of a case stands after its name, and a test isn't counted beside its cases."""
    if report.passed and cases_of(report):
        return '', '', ''
    if report.passed and report.when == 'call':
        said = dict(report.user_properties).get('said')
        return 'passed', '.', f'PASSED {report.duration:.2f} s' + (f': {said}' if said else '')
    return None
