"""A clock that a test sets, for a service that is started with it (libfaketime). What counts seconds since the start goes on as it does."""
import pathlib

PRELOAD = next(iter(pathlib.Path("/usr/lib").glob("*/faketime/libfaketimeMT.so.1")), None)
MISSING = "left out: faketime is missing"


class Clock:
    """Seconds that the clock is ahead of the right one."""

    def __init__(self, folder):
        self.file = folder / "clock"
        self.set(0)

    def set(self, ahead):
        new = self.file.with_suffix(".new")
        new.write_text(f"{ahead:+d}\n")
        new.rename(self.file)

    def variables(self):
        return {
            "LD_PRELOAD": str(PRELOAD),
            "FAKETIME_TIMESTAMP_FILE": str(self.file),
            "FAKETIME_NO_CACHE": "1",
            "FAKETIME_DONT_FAKE_MONOTONIC": "1",
            "GLIBC_TUNABLES": "glibc.malloc.tcache_count=64",
        }
