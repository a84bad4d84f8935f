"""What the programs of this folder print that make rows: of each row, a line of `stdin` and what it answers, the line; or, where
their last word is `answers`, what it answers.
"""
import sys


def write(rows):
    column = 1 if sys.argv[-1] == "answers" else 0
    for row in rows:
        print(row[column])
