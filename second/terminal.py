"""What a program writes to a terminal."""
import os
import pty
import subprocess
import tempfile


def on_terminal(*words, data=b"", **variables):
    """The lines that the program of these words writes to a terminal, given its input and variables of its environment."""
    ours, its = pty.openpty()
    with tempfile.TemporaryFile() as feed:
        feed.write(data)
        feed.seek(0)
        ran = subprocess.Popen(words, stdin=feed, stdout=its, stderr=subprocess.DEVNULL, env={**os.environ, "NO_COLOR": "", **variables})
    os.close(its)
    text = b""
    while True:
        try:
            part = os.read(ours, 4096)
        except OSError:  # the other end is closed
            break
        if not part:
            break
        text += part
    os.close(ours)
    ran.wait(timeout=60)
    return text.decode().replace("\r\n", "\n").splitlines()
