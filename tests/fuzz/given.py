"""What a run is given: the values of its words, the files that they name, and the calls of its log."""
import os
import re

# The options that name a command's files: only these are spoilt and written anew.
NAMED = (b'--chains', b'--anchors', b'--table', b'--answers', b'--leaf', b'--state')


def option(words, name, otherwise=''):
    """The value of an option."""
    for word, after in zip(words, [*words[1:], b'']):
        if word == name:
            return os.fsdecode(after)
        if word.startswith(name + b'='):
            return os.fsdecode(word[len(name) + 1:])
    return otherwise


def named_files(words, files):
    """The files that the words name and those that a chain map lists, as far as they are there."""
    names = [option(words, name) for name in NAMED]
    for name in [name for name in names if name in files]:
        names += [os.fsdecode(found) for found in re.findall(rb' (\S+)', files[name]) if len(files[name]) < 4096]
    return {name: files[name] for name in names if name in files}


def entries(log, last=0):
    """The whole entries of a log, each a moment and a message, and where the next one fails, or None at the end (docs/FORMATS.md). LAST is the moment
    before them."""
    found, at = [], 0
    while at < len(log):
        head = re.compile(rb'@(0|[1-9][0-9]*) (0|[1-9][0-9]*)\n').match(log, at)
        if not head or len(found) == 1_000_000:
            return found, at
        moment, size = int(head[1]), int(head[2])
        if moment > 253_402_300_799 or size > 131_072 or moment < last or head.end() + size > len(log):
            return found, at
        found.append((moment, log[head.end():head.end() + size]))
        at, last = head.end() + size, moment
    return found, None
