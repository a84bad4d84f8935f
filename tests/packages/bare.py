"""A bare Debian 12 in a folder, in which packages come and go as on a user's machine."""
import os
import pathlib
import shutil
import subprocess
import time

# What the packages' dependencies are, which the tarball has downloaded: so that a test asks no mirror. apt fetches what isn't there.
DEPENDENCIES = ('ca-certificates', 'libsqlite3-0', 'libssl3', 'openssl', 'python3', 'python3-cryptography')
KEPT = 30 * 86400

# The environment of a user who is root there.
ENVIRONMENT = {'PATH': '/usr/sbin:/usr/bin:/sbin:/bin', 'HOME': '/root', 'LC_ALL': 'C.UTF-8', 'DEBIAN_FRONTEND': 'noninteractive'}


class Missing(Exception):
    """Why there is no bare Debian here."""


def base():
    """The tarball of a bare Debian: the one that is kept, if it is a month old at most, or a new one."""
    if os.geteuid() != 0:
        raise Missing('only root may make a bare Debian')
    if not shutil.which('mmdebstrap'):
        raise Missing('missing: mmdebstrap')
    kept = pathlib.Path(os.environ.get('XDG_CACHE_HOME', pathlib.Path.home() / '.cache'), 'stir/bookworm.tar')
    if kept.exists() and time.time() - kept.stat().st_mtime < KEPT:
        return kept
    kept.parent.mkdir(parents=True, exist_ok=True)
    new = kept.with_name(f'new-{os.getpid()}.tar')
    download = f'chroot "$1" apt-get install --yes --download-only {" ".join(DEPENDENCIES)}'
    done = subprocess.run(['mmdebstrap', '--quiet', '--variant=minbase', '--skip=cleanup/apt', f'--customize-hook={download}', 'bookworm', new],
                          stdin=subprocess.DEVNULL, stdout=subprocess.DEVNULL, stderr=subprocess.PIPE, text=True)
    if done.returncode:
        new.unlink(missing_ok=True)
        raise Missing(f'mmdebstrap makes no bare Debian: {done.stderr.strip()[-300:]}')
    return new.rename(kept)


class Root:
    """A bare Debian of its own, whose network is its own too."""

    def __init__(self, tarball, folder):
        self.folder = folder
        folder.mkdir(parents=True)
        subprocess.run(['tar', '-C', folder, '--numeric-owner', '-xf', tarball], check=True)
        shutil.copy('/etc/resolv.conf', folder / 'etc/resolv.conf')

    def command(self, *words, user=None):
        return ['chroot', *([f'--userspec={user}'] if user else []), self.folder, *words]

    def run(self, *words, given='', user=None):
        """The status, the output and the standard error of a command there."""
        done = subprocess.run(self.command(*words, user=user), input=given, stdout=subprocess.PIPE, stderr=subprocess.PIPE, text=True, env=ENVIRONMENT)
        return done.returncode, done.stdout, done.stderr

    def apt(self, *words):
        """Runs apt, which must succeed, and returns what it says."""
        status, output, error = self.run('apt-get', '--yes', *words)
        assert status == 0, output + error
        return output

    def install(self, *files):
        """Installs packages from their files, as `apt install ./NAME.deb`."""
        for file in files:
            shutil.copy(file, self.folder / 'root' / file.name)
        return self.apt('install', *(f'/root/{file.name}' for file in files))

    def put(self, name, data):
        file = self.folder / name.lstrip('/')
        file.parent.mkdir(parents=True, exist_ok=True)
        file.write_bytes(data)

    def end(self):
        shutil.rmtree(self.folder)
