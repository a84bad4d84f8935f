"""Certificates for TLS by openssl, and requests of clients that show one."""
import http.client
import json
import pathlib
import ssl
import subprocess


def openssl(folder: pathlib.Path, *words: str) -> str:
    return subprocess.run(["openssl", *words], cwd=folder, check=True, stdout=subprocess.PIPE, stderr=subprocess.DEVNULL, text=True).stdout


def authority(folder: pathlib.Path, root: str, names: tuple[str, ...]) -> None:
    """A root, and a key with a certificate of it for each name: ROOT.pem, NAME.pem and NAME.key."""
    new = "req", "-newkey", "ec", "-pkeyopt", "ec_paramgen_curve:P-256", "-nodes"
    openssl(folder, *new, "-x509", "-subj", f"/CN={root}", "-days", "30", "-keyout", f"{root}.key", "-out", f"{root}.pem", "-addext",
            "basicConstraints=critical,CA:TRUE")
    for name in names:
        openssl(folder, *new, "-subj", f"/CN={name}", "-keyout", f"{name}.key", "-out", f"{name}.csr")
        (folder / f"{name}.ext").write_text("subjectAltName=DNS:localhost,IP:127.0.0.1\n")
        openssl(folder, "x509", "-req", "-in", f"{name}.csr", "-CA", f"{root}.pem", "-CAkey", f"{root}.key", "-days", "30", "-extfile", f"{name}.ext", "-out",
                f"{name}.pem")


def fingerprint(folder: pathlib.Path, name: str) -> str:
    """The SHA-256 of a certificate, in hexadecimal digits."""
    return openssl(folder, "x509", "-in", f"{name}.pem", "-noout", "-fingerprint", "-sha256").split("=")[1].strip().replace(":", "")


def words(folder: pathlib.Path, root: str = "root") -> list[str]:
    """The words by which the service asks each client for a certificate of this root."""
    return ["--tls-certificate", f"{folder}/server.pem", "--tls-key", f"{folder}/server.key", "--tls-clients", f"{folder}/{root}.pem"]


def ask(port: int, folder: pathlib.Path, name: str, path: str, body: object = None, fields: dict[str, str] | None = None) -> tuple[int, str]:
    """What a client with this certificate is answered over TLS: the status and the text. What is no bytes is sent as JSON."""
    context = ssl.create_default_context(cafile=folder / "root.pem")
    context.load_cert_chain(folder / f"{name}.pem", folder / f"{name}.key")
    connection = http.client.HTTPSConnection("localhost", port, timeout=10, context=context)
    data = body if body is None or isinstance(body, bytes) else json.dumps(body).encode()
    connection.request("GET" if body is None else "POST", path, data, fields or {})
    answer = connection.getresponse()
    text = answer.read().decode()
    connection.close()
    return answer.status, text
