"""The lines of packaging/stird.toml, and the options that `stird --help` lists."""
import re
import tomllib

# Options that a file of settings hasn't.
WORDS_ALONE = {"config", "help", "version"}


def options(told):
    """Each option that is listed, and its default if it has one."""
    parts = re.split(r"^ +(?:-\w, )?--", told, flags=re.M)[1:]
    found = {re.match(r"[a-z0-9-]+", part)[0]: re.search(r"\[default: ([^\]]+)\]", part) for part in parts}
    return {name: default and default[1] for name, default in found.items() if name not in WORDS_ALONE}


def settings(text):
    """Each setting that is shown or set, and its values."""
    found = {}
    for line in text.splitlines():
        if re.match(r"#?[a-z0-9-]+ = ", line):
            (name, value), = tomllib.loads(line.removeprefix("#")).items()
            found.setdefault(name, []).append(value)
    return found


def word(value):
    """A value as a word of the command line."""
    if isinstance(value, bool):
        return "yes" if value else "no"
    return word(value[0]) if isinstance(value, list) else str(value)
