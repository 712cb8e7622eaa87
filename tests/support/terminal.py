"""A terminal in place of a stream of the program."""
import os
import pty
import subprocess

from tests.support.program import Tried


def on_terminal(tried: Tried, words: str, stream: str = "stderr", **how) -> tuple[int, str]:
    """The status, and what comes on a terminal that is this stream."""
    mine, its = pty.openpty()
    tried.count += 1
    streams = {"stdin": subprocess.DEVNULL, "stdout": subprocess.DEVNULL, "stderr": subprocess.DEVNULL, stream: its}
    done = subprocess.run([tried.program, *words.split()], cwd=tried.folder, **streams, **how)
    os.close(its)
    said = b""
    try:
        while part := os.read(mine, 4096):
            said += part
    except OSError:
        pass
    os.close(mine)
    return done.returncode, said.decode().replace("\r\n", "\n")
