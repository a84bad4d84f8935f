"""Runs the tools around the program on the cases of this folder: the lines of `cases`, and the modules that say what no line can say.

What needs a package that is missing is skipped.
"""
import importlib.util
import shutil

import asserted
import debian
import gates
import packaged
import pages
import pytest
import refusals
import starts
import terminals
import tool_cases
from tool_cases import FILES, TOOLS, tool

HAS_LIBRARY = importlib.util.find_spec('cryptography') is not None


def needs(*names):
    """Skips a test if one of these programs is missing."""
    missing = [name for name in names if not shutil.which(name)]
    return pytest.mark.skipif(bool(missing), reason=f'missing: {", ".join(missing)}')


def needs_of(line):
    return ['tshark'] * line.startswith('+tshark')


@pytest.mark.parametrize('line', [pytest.param(line, id=f'cases:{number}', marks=needs(*needs_of(line))) for number, line in tool_cases.lines()])
def test_line(line, equal):
    equal(*tool_cases.case(line), given=line)


def test_words(each, program):
    each(refusals.results(program))


def test_starts(each):
    each(starts.results())


def test_gates(each):
    each(gates.results())


def test_pages(each, program):
    each(pages.results(program, HAS_LIBRARY))


def test_asserted(each, program):
    each(asserted.results(tool, program))


def test_packaged(each):
    each(packaged.results())


@needs('git', 'dh', 'dh_python3')
def test_package(each):
    each(debian.results())


def test_terminals(each):
    each(terminals.results(TOOLS, FILES))
