"""Runs the built program on the cases of this folder (command_cases.py), and counts its threads (threads.py)."""
import shutil

import command_cases
import pytest
import threads


@pytest.mark.parametrize('case', [pytest.param(case, id=name) for name, case in command_cases.cases()])
def test_program(case, program, equal):
    equal(*case(program), given=getattr(case, 'args', ''))


@pytest.mark.skipif(not shutil.which('cc'), reason='missing: cc')
def test_threads(each, program):
    each(threads.results(program))
