"""A token of SoftHSM in a folder of its own, with keys that came there from elsewhere, as a service sees it: in its own process, or behind a
server of p11-kit."""
import os
import pathlib
import signal
import socket
import subprocess
import time

from cryptography.hazmat.primitives import serialization

MODULE = pathlib.Path("/usr/lib/softhsm/libsofthsm2.so")
CLIENT = next(pathlib.Path("/usr/lib").glob("*/pkcs11/p11-kit-client.so"), pathlib.Path("/no/p11-kit-client.so"))
PIN = "4321"


class Token:
    """A token with the label `label`; its keys have the names and identifiers that they are given."""

    def __init__(self, folder, label="stir"):
        self.folder, self.label = folder, label
        (folder / "tokens").mkdir(parents=True)
        (folder / "softhsm2.conf").write_text(f"directories.tokendir = {folder}/tokens\nobjectstore.backend = file\nlog.level = ERROR\n")
        self.variables = {"SOFTHSM2_CONF": str(folder / "softhsm2.conf")}
        self.pin = folder / "pin"
        self.pin.write_text(f"{PIN}\nwhat stands in further lines is passed over\n")
        self.pin.chmod(0o600)
        self.util("--init-token", "--free", "--label", label, "--so-pin", "12345678", "--pin", PIN)

    def util(self, *words):
        subprocess.run(["softhsm2-util", *words], env=os.environ | self.variables, check=True, capture_output=True, text=True)

    def add(self, name, number, key):
        """Brings a key there. Its file isn't kept."""
        path = self.folder / "key.p8"
        path.write_bytes(key.private_bytes(serialization.Encoding.PEM, serialization.PrivateFormat.PKCS8, serialization.NoEncryption()))
        self.util("--import", str(path), "--token", self.label, "--label", name, "--id", f"{number:02x}", "--pin", PIN)
        path.unlink()

    def uri(self, name, module=MODULE, pin=None):
        return f"pkcs11:token={self.label};object={name};type=private?pin-source=file:{pin or self.pin}&module-path={module}"


class Server:
    """A token behind a server of p11-kit, which may go away, come again, and keep one waiting."""

    def __init__(self, token):
        self.token, self.path, self.process = token, token.folder / "p11-kit", None
        self.variables = {"P11_KIT_SERVER_ADDRESS": f"unix:path={self.path}"}
        self.start()

    def start(self):
        self.path.unlink(missing_ok=True)
        words = ["p11-kit", "server", "--foreground", "--provider", MODULE, "--name", self.path, f"pkcs11:token={self.token.label}"]
        self.process = subprocess.Popen(words, env=os.environ | self.token.variables, stdout=subprocess.DEVNULL, stderr=subprocess.DEVNULL,
                                        start_new_session=True)
        until = time.monotonic() + 30
        while not self.listens():
            assert time.monotonic() < until, "p11-kit's server doesn't listen"
            time.sleep(0.02)

    def listens(self):
        """Whether who comes is taken: its socket is there before."""
        with socket.socket(socket.AF_UNIX) as one:
            return one.connect_ex(str(self.path)) == 0

    def all(self, how):
        """A signal to the server and to what it made for those who are connected."""
        os.killpg(self.process.pid, how)

    def kill(self):
        self.all(signal.SIGCONT)
        self.all(signal.SIGKILL)
        self.process.wait()
        self.path.unlink(missing_ok=True)
