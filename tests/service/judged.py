"""A world whose calls the program judged, as the tests of the library and those of the service of before share it."""
import dataclasses
import pathlib

import judging
from world import World

TOP = pathlib.Path(__file__).resolve().parents[2]
CALLS = 600


@dataclasses.dataclass(frozen=True)
class Judged:
    """The program, and a world in a folder with its calls and the program's report of them."""
    stir: pathlib.Path
    folder: pathlib.Path
    world: World
    calls: list
    report: str

    @classmethod
    def of(cls, request, program, folder, **others):
        """Makes a world as large as `--calls` and `--chains` say, and judges its calls."""
        given = request.config.getoption
        world = World(folder / "world", given("chains"))
        calls = list(world.calls(given("calls") or CALLS))
        return cls(program, folder, world, calls, judging.report(program, TOP, world, calls, folder), **others)
