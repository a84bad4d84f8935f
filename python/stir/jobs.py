"""A day as it is handed to other machines: by the names of its files, and by what was in them when it began. What they judged can be kept."""
import dataclasses
import functools
import hashlib
import os
import pathlib
from dataclasses import dataclass
from typing import Callable, Optional, Tuple

from . import days
from .answers import Answers
from .errors import BadFile
from .es256 import Question, confirm
from .logs import Name, Part
from .settings import Settings
from .world import World


@dataclass(frozen=True)
class Job:
    """What a day is judged by. Each machine reads the files under these names, those of the chain map from `folder` on. `answers` names an answers file;
    without one each machine confirms signatures itself. `digest` is the SHA-256 of what the files held, so that no machine goes by others."""

    chains: str
    anchors: str
    table: str
    folder: str
    answers: Optional[str]
    settings: Settings
    digest: bytes = b""

    @classmethod
    def of(cls, chains: Name, anchors: Name, table: Name, answers: Optional[Name] = None, settings: Settings = Settings()) -> "Job":
        """The job of these files, which are read once. Raises OSError, and BadFile if one is outside its grammar."""
        verifier = os.path.abspath(os.fspath(answers)) if answers else None
        chains, anchors, table = (os.path.abspath(os.fspath(name)) for name in (chains, anchors, table))
        job = cls(chains, anchors, table, os.getcwd(), verifier, settings)
        return dataclasses.replace(job, digest=read(job)[2])


def read(job: Job) -> Tuple[World, Callable[[Question], bool], bytes]:
    """What the calls of a job are judged by, the verifier of signatures, and the digest of both."""
    world = World.read(job.chains, job.anchors, job.table, job.folder, job.settings)
    if not job.answers:
        return world, confirm, world.digest
    answers = Answers.read(job.answers)
    return world, answers, hashlib.sha256(world.digest + answers.digest).digest()


@functools.lru_cache(maxsize=1)
def held(job: Job) -> Tuple[World, Callable[[Question], bool]]:
    """What the calls of a job are judged by, read once by each process."""
    world, verifier, digest = read(job)
    if digest != job.digest:
        raise BadFile("the chains, anchors, table or answers aren't any more what they were when the job began")
    return world, verifier


def judge(job: Job, part: Part) -> days.Judged:
    """Judges a part of a log, on whatever machine. Raises OSError, BadFile and OutOfMemory."""
    return days.judge_part(part, *held(job))


class Kept:
    """The parts of a job that were judged, in files of a folder, so that a day that ended in the middle goes on from there. A part counts only if
    neither the job's files have changed since, nor the size or time of the log. Raises OSError."""

    def __init__(self, folder: Name, job: Job) -> None:
        self.folder, self.job = pathlib.Path(folder), job
        self.folder.mkdir(parents=True, exist_ok=True)

    def file(self, part: Part) -> pathlib.Path:
        state = os.stat(part.log)
        what = repr((self.job, part, state.st_size, state.st_mtime_ns))
        return self.folder / hashlib.sha256(what.encode()).hexdigest()

    def get(self, part: Part) -> Optional[days.Judged]:
        """What is kept of a part, if it is whole."""
        try:
            judged = days.read(self.file(part).read_text("ascii"))
        except (FileNotFoundError, ValueError):
            return None
        return judged if (judged.first, len(judged.verdicts)) == (part.first, part.count) else None

    def put(self, part: Part, judged: days.Judged) -> None:
        """Keeps a part. The file has its name once it is whole."""
        file = self.file(part)
        new = file.with_suffix(".new")
        new.write_text(days.written(judged), "ascii")
        new.replace(file)
