"""The rules as docs/RULES.md has them, for all tests: the response code of each, in the order in which the rules are tried; and what of this the proved
library has otherwise."""
import pathlib
import re

TOP = pathlib.Path(__file__).resolve().parent.parent
HEAD = '| Rule | Holds if | Code | Place | Standard |\n'
REPLAY = 18


def read(page):
    """The codes in the tables of a page, by the numbers of the rules."""
    tables = (rest.split('\n\n')[0] for rest in page.split(HEAD)[1:])
    return {int(number): int(code) for table in tables for number, code in re.findall(r'(?m)^\| (\d+) \|.*? \| (\d{3}) \|', table)}


# Of all rules; and of those by which a call is judged by itself: the rules of the call and the chains.
ALL = read((TOP / 'docs/RULES.md').read_text())
CODES = {number: code for number, code in ALL.items() if number != REPLAY}


def other_lists():
    """The lists of the library that don't have these rules: the rows of the response codes, and the numbers of the lines of `explain`."""
    rows = (TOP / 'crates/verify_rules/specs/Code.antt').read_text().split('\ncode_rows =')[1].split('\n\n')[0]
    numbers = (TOP / 'crates/call_judging/src/rule_numbers.rt').read_text().split('pub const RULES')[1].split('= [')[1].split(']')[0]
    found = {
        'code_rows of verify_rules': (dict(sorted(ALL.items())), {int(rule): int(code) for rule, code in re.findall(r'\((\d+), (\d+)\)', rows)}),
        'RULES of call_judging': (list(CODES), [int(number) for number in numbers.split(',') if number.strip()]),
    }
    return [f'{name}: {listed}, and docs/RULES.md has {wanted}' for name, (wanted, listed) in found.items() if listed != wanted]
