"""What the tests of the service share: its program, and worlds of real keys."""
import pathlib
import time

import pytest
from stird import Stird
from world import World


@pytest.fixture(scope="session")
def stird(request):
    return request.config.getoption("stird").resolve()


@pytest.fixture(scope="session")
def world(tmp_path_factory):
    """A small world whose calls come at START, so a service judges them with `--moments asked`."""
    return World(tmp_path_factory.mktemp("world") / "world", 3)


@pytest.fixture(scope="session")
def today(tmp_path_factory):
    """A small world whose certificates are valid by the clock."""
    return World(tmp_path_factory.mktemp("today") / "world", 3, int(time.time()))


@pytest.fixture
def started(stird, world):
    """Starts the service over the small world with these words more, by its keyword arguments, and ends it after the test."""
    services = []

    def start(*words, by=None, program=stird, **others):
        services.append(Stird(program, [*(by or world).words(), "--moments", "asked", *map(str, words)], **others))
        return services[-1]

    yield start
    for service in services:
        service.stop()


@pytest.fixture
def by_clock(stird, today):
    """The same, over the world of today by the clock."""
    services = []

    def start(*words, **others):
        services.append(Stird(stird, [*today.words(), *map(str, words)], **others))
        return services[-1]

    yield start
    for service in services:
        service.stop()


@pytest.fixture(scope="session")
def library(tmp_path_factory):
    """Builds a library of C that stands before others by LD_PRELOAD."""
    import subprocess

    def built(text):
        folder = tmp_path_factory.mktemp("preload")
        (folder / "one.c").write_text(text)
        subprocess.run(["cc", "-shared", "-fPIC", "-o", folder / "one.so", folder / "one.c"], check=True)
        return pathlib.Path(folder / "one.so")

    return built
