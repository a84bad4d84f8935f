#!/usr/bin/env python3
"""Starts stird in a bare Debian, in a network of its own, has it judge the INVITE of the standard input, and writes its answer.

    unshare --net --mount inside.py ROOT USER[:GROUP] READ-ONLY WORD..

READ-ONLY is `yes` if nothing there may be written. The status is that of stird after SIGTERM.
"""
import fcntl
import http.client
import socket
import struct
import subprocess
import sys
import time

SIOCSIFFLAGS = 0x8914
IFF_UP = 1
DOOR = '127.0.0.1', 8080
PATIENCE = 30


def raise_loopback():
    with socket.socket(socket.AF_INET, socket.SOCK_DGRAM) as door:
        fcntl.ioctl(door, SIOCSIFFLAGS, struct.pack('16sH', b'lo', IFF_UP))


def mount(root, is_read_only):
    """What stird finds in its root; it goes with this process's mounts."""
    subprocess.run(['mount', '-t', 'proc', 'proc', f'{root}/proc'], check=True)
    if is_read_only:
        subprocess.run(['mount', '--bind', root, root], check=True)
        subprocess.run(['mount', '-o', 'remount,bind,ro', root], check=True)


def answer(method, path, body=None):
    connection = http.client.HTTPConnection(*DOOR, timeout=PATIENCE)
    connection.request(method, path, body, {'Content-Type': 'message/sip'} if body else {})
    said = connection.getresponse()
    return said.status, said.read()


def is_ready(service):
    """Whether it answers within its time."""
    end = time.monotonic() + PATIENCE
    while time.monotonic() < end and service.poll() is None:
        try:
            return answer('GET', '/readyz')[0] == 200
        except OSError:
            time.sleep(0.05)
    return False


def main():
    root, user, read_only, *words = sys.argv[1:]
    message = sys.stdin.buffer.read()
    raise_loopback()
    mount(root, read_only == 'yes')
    service = subprocess.Popen(['chroot', f'--userspec={user}', root, '/usr/bin/stird', *words], stdin=subprocess.DEVNULL,
                               env={'PATH': '/usr/sbin:/usr/bin', 'LC_ALL': 'C.UTF-8'})
    if not is_ready(service):
        service.kill()
        sys.exit('inside: stird is not ready')
    print(answer('POST', '/verify', message)[1].decode())
    service.terminate()
    return service.wait(PATIENCE)


if __name__ == '__main__':
    sys.exit(main())
