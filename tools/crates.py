"""What crates.txt says: the repository's crates, and which stand on which."""
import pathlib

TOP = pathlib.Path(__file__).resolve().parent.parent


def named():
    """Each crate with all that its line names: crates of the repository, and libraries of the kit."""
    lines = [line.split('#')[0].strip() for line in (TOP / 'crates.txt').read_text().splitlines()]
    return {line.split(':')[0].split()[0]: line.split(':')[1].split() for line in lines if line}


def below():
    """Each crate with the crates of the repository that its line names."""
    lines = named()
    return {name: [part for part in parts if part in lines] for name, parts in lines.items()}


def of_the_kit():
    """The crates that the lines name and that the repository hasn't: those of the kit, in the order of their names."""
    lines = named()
    return sorted({part for parts in lines.values() for part in parts} - set(lines))


def standing_under(name, crates):
    """The crates that this one stands on, and itself, lowest first."""
    found = []

    def visit(at):
        if at not in found:
            for part in crates[at]:
                visit(part)
            found.append(at)

    visit(name)
    return found


def standing_on(name, crates):
    """The crate and all that stand on it, lowest first."""
    wanted = {it for it in crates if name in standing_under(it, crates)}
    ordered = []
    for it in crates:
        ordered += [part for part in standing_under(it, crates) if part in wanted and part not in ordered]
    return ordered
