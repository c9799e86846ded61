"""A server on a free port of loopback, which is ended when it is no longer needed."""

import socket
import subprocess
import tempfile
import threading
from contextlib import contextmanager
from pathlib import Path
from typing import NamedTuple

from running.patience import LIMIT


class Server(NamedTuple):
    """A server that listens."""
    process: subprocess.Popen
    port: int


@contextmanager
def listening(*words, **settings):
    """Starts a server that says in its first line, after its last colon, on which port it listens."""
    with subprocess.Popen(words, **settings, stdin=subprocess.DEVNULL, stdout=subprocess.PIPE, text=True) as process:
        late = threading.Timer(LIMIT, process.kill)
        late.start()
        try:
            line = process.stdout.readline()
            late.cancel()
            port = line.strip().rpartition(":")[2]
            if not port.isdecimal():
                raise OSError(f"{words[0]} does not listen: {line!r}")
            yield Server(process, int(port))
        finally:
            late.cancel()
            process.kill()


def free_port():
    """A port of loopback that nobody listens on."""
    with socket.create_server(("127.0.0.1", 0)) as free:
        return free.getsockname()[1]


@contextmanager
def targetd(program, units, **settings):
    """targetd with the targets of a configuration. It listens on the address that it tells in a discovery session,
    so the port is chosen before it starts."""
    with tempfile.TemporaryDirectory(prefix="targetd-") as folder:
        config = Path(folder) / "config.toml"
        config.write_text(f'listen = "127.0.0.1:{free_port()}"\n{units}', encoding="ascii")
        with listening(program, "serve", "--config", config, **settings) as server:
            yield server
