"""A Mercurial that is started once and told one command after the other: `hg serve --cmdserver pipe`."""
import os
import struct
import subprocess
import tempfile

HEAD = struct.Struct(">cI")


class HgFault(Exception):
    """What is said where Mercurial can't be started, or where a command fails."""


class CommandServer:
    """Commands are told as words. What they write is read in whole, and what they ask is answered by given lines."""

    def __init__(self, begin=("hg",), config=(), environment=None, folder=None):
        settings = [word for setting in config for word in ("--config", setting)]
        words = [*begin, *settings, "serve", "--cmdserver", "pipe"]
        self.errors = tempfile.TemporaryFile()
        self.process = started(words, self.errors, {**os.environ, **(environment or {})}, folder)
        self.read()

    def __enter__(self):
        return self

    def __exit__(self, *_):
        self.close()

    def read(self):
        """What comes next: the byte of its channel, and what it is, or how many bytes it takes where it asks."""
        head = self.process.stdout.read(HEAD.size)
        if len(head) < HEAD.size:
            self.errors.seek(0)
            raise HgFault(last_line(self.errors.read()) or "hg ended")
        channel, size = HEAD.unpack(head)
        return channel, size if channel in b"IL" else self.process.stdout.read(size)

    def run(self, *words, answers=()):
        """The status, the output and the error text of a command, whose questions are answered by these lines."""
        self.tell(b"runcommand\n", b"\0".join(map(os.fsencode, words)))
        told, left = {b"o": b"", b"e": b"", b"d": b""}, list(answers)
        channel, piece = self.read()
        while channel != b"r":
            if channel in b"IL":
                self.tell(b"", left.pop(0) + b"\n" if left and channel == b"L" else b"")
            else:
                told[channel] += piece
            channel, piece = self.read()
        return struct.unpack(">i", piece)[0], told[b"o"], told[b"e"]

    def tell(self, front, some):
        """Writes some bytes behind their length."""
        self.process.stdin.write(front + struct.pack(">I", len(some)) + some)
        self.process.stdin.flush()

    def ask(self, *words):
        """The output of a command, which mustn't fail."""
        status, output, errors = self.run(*words)
        if status:
            raise HgFault(last_line(errors) or f"hg {words[0]} fails")
        return output

    def close(self):
        self.process.stdin.close()
        self.process.wait()
        self.process.stdout.close()
        self.errors.close()


def started(words, errors, environment, folder):
    """The process of a command server."""
    pipe = subprocess.PIPE
    try:
        return subprocess.Popen(words, stdin=pipe, stdout=pipe, stderr=errors, env=environment, cwd=folder)
    except OSError as fault:
        raise HgFault(f"{words[0]} can't be started: {fault.strerror}") from None


def last_line(text):
    """The last line of a text that tells what went wrong, without the hints behind it."""
    lines = [line for line in text.decode(errors="replace").splitlines() if line and not line.startswith("(")]
    return lines[-1].strip().removeprefix("abort: ") if lines else ""
