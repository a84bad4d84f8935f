"""Links the proved library into the package: libstir_c.a and liblibc_c.a of the Rattle kit become stir/libstir.so.

STIR_LIB is the folder of libstir_c.a; crates/stir_c/out beside this folder if it isn't set. RATTLE_C is the folder of liblibc_c.a; `c` in
RATTLE, the folder of the kit, or in /opt/rattle. CC is the compiler that links; `cc` if it isn't set.
"""
import os
import pathlib
import subprocess

from setuptools import Extension, setup
from setuptools.command.build_ext import build_ext
from setuptools.errors import PlatformError

HERE = pathlib.Path(__file__).resolve().parent

# What the shared object shows: the functions that include/stir.h declares, and nothing of what they are made of.
EXPORTS = HERE / "exports.map"


def archives():
    """The two archives, in the order in which they are linked."""
    library = pathlib.Path(os.environ.get("STIR_LIB", HERE.parent / "crates" / "stir_c" / "out"))
    kit = pathlib.Path(os.environ.get("RATTLE", "/opt/rattle"))
    return library / "libstir_c.a", pathlib.Path(os.environ.get("RATTLE_C", kit / "c")) / "liblibc_c.a"


class BuildLibrary(build_ext):
    """Makes the shared object, which isn't a module of Python's: it is loaded by ctypes."""

    def get_ext_filename(self, fullname):
        return os.path.join(*fullname.split(".")) + ".so"

    def build_extension(self, ext):
        library, kit = archives()
        for archive, made_by in ((library, "rt lib in crates/stir_c makes it"), (kit, "it is in the folder `c` of the Rattle kit")):
            if not archive.is_file():
                raise PlatformError(f"{archive} is missing; {made_by}")
        target = pathlib.Path(self.get_ext_fullpath(ext.name))
        target.parent.mkdir(parents=True, exist_ok=True)
        whole = ["-Wl,--whole-archive", str(library), "-Wl,--no-whole-archive", str(kit)]
        command = [os.environ.get("CC", "cc"), "-shared", "-o", str(target), *whole, f"-Wl,--version-script={EXPORTS}", "-Wl,-z,defs"]
        try:
            subprocess.run(command, check=True)
        except (OSError, subprocess.CalledProcessError) as error:
            raise PlatformError(f"the library can't be linked: {error}") from error


setup(version=(HERE.parent / "VERSION").read_text().strip(), ext_modules=[Extension("stir.libstir", sources=[])], cmdclass={"build_ext": BuildLibrary})
