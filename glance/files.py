"""A bench's two files, and what the proved programs print of them. Nothing is decided here."""
import os
import pathlib
import signal
import subprocess
import sys

HERE = pathlib.Path(__file__).resolve().parent.parent
RECORD = 24
ROW = 12
PIECE = 1 << 16  # records
CHANGED = "run.rec: changed while it was read\n"


class Stopped(Exception):
    """A program met an error; what it said is the exception's text."""


class Refused(Exception):
    """A program's whole answer is a refusal: `refused=N` and a newline."""


def _started(program, folder):
    return subprocess.Popen([HERE / "tools" / "built", program], cwd=folder, stdout=subprocess.PIPE, stderr=subprocess.PIPE)


def printed(program, folder):
    """What a program prints in a folder. A refusal's status is 1 too, so an error is told by what stands on standard error."""
    running = _started(program, folder)
    out, said = running.communicate()
    if out.startswith(b"refused="):
        raise Refused(out.decode())
    if running.returncode != 0:
        raise Stopped(said.decode(errors="replace"))
    return out


def values(text):
    """The lines `key=value` of a settings text or of a part of a report."""
    return {key: int(value) for key, _, value in (line.partition("=") for line in text.split())}


def settings(folder):
    """The settings by their keys in the newest edition, whatever edition the file has."""
    return values(printed("desk_edition", folder).decode())


def report(folder):
    """The report's common lines, and each controller's block of lines by its number."""
    common, *blocks = printed("desk", folder).decode().split("ptc=")
    told = [values("ptc=" + block) for block in blocks]
    return values(common), {block["ptc"]: block for block in told}


def _whole(stream, size):
    """As many bytes as asked for, fewer only at the end: a pipe gives what it has."""
    parts = []
    while size:
        part = stream.read(size)
        if not part:
            break
        parts.append(part)
        size -= len(part)
    return b"".join(parts)


def _records(log, count):
    """The next records, of which the rows are there already."""
    try:
        records = _whole(log, count * RECORD)
    except OSError as error:
        raise Stopped(f"run.rec: {error.strerror}\n") from error
    if len(records) < count * RECORD:
        raise Stopped(CHANGED)
    return records


def open_log(folder):
    """`run.rec`, or an empty log where it cannot be opened, as document 01 has it."""
    try:
        return open(pathlib.Path(folder) / "run.rec", "rb", buffering=0)
    except OSError:
        return open("/dev/null", "rb", buffering=0)


def pieces(folder):
    """The log with the rows of it, a piece of both at a time, in constant memory."""
    running = _started("desk_rows", folder)
    try:
        with open_log(folder) as log:
            rows = _whole(running.stdout, ROW * PIECE)
            if rows.startswith(b"refused="):
                raise Refused(rows.decode())
            while rows:
                records = _records(log, len(rows) // ROW)
                yield records, rows
                rows = _whole(running.stdout, ROW * PIECE)
        said = running.stderr.read().decode(errors="replace")
        if running.wait() != 0:
            raise Stopped(said)
    finally:
        running.kill()
        running.communicate()


def _status(tool):
    try:
        try:
            status = tool()
        except Refused as refusal:
            sys.stdout.write(str(refusal))
            status = 1
        sys.stdout.flush()
        return status
    except Stopped as error:
        sys.stderr.write(str(error))
    except OSError as error:
        sys.stderr.write(f"standard output: {error.strerror}\n")
        os.dup2(os.open(os.devnull, os.O_WRONLY), 1)  # what is left in the buffer goes nowhere
    return 1


def run(tool):
    """A tool's main, and its status: 1 where a refusal or an error kept it from its work. A reader that goes away ends it as it ends the
    desk's own programs."""
    signal.signal(signal.SIGPIPE, signal.SIG_DFL)
    signal.signal(signal.SIGINT, signal.SIG_DFL)
    sys.exit(_status(tool))
