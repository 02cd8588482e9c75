"""What the cases in Python share: counted cases, a folder to work in, and benches made in it."""
import pathlib
import re
import subprocess
import sys
import tempfile

HERE = pathlib.Path(__file__).resolve().parent.parent
sys.dont_write_bytecode = True
sys.path[:0] = [str(HERE / "glance"), str(HERE / "examples")]

CROSSING = bytes([0, 0, 0, 8]) + bytes([0x88]) * 20
STANDARD = (HERE / "crates/desk_settings/stdout").read_text()


class Cases:
    def __init__(self, name):
        self.name, self.passed, self.failed = name, 0, 0

    def note(self, name, ok, seen=""):
        if ok:
            self.passed += 1
        else:
            self.failed += 1
            print(f"{self.name}: {name}: FAILED{f': {seen}' if seen != '' else ''}", flush=True)

    def same(self, name, found, wanted):
        self.note(name, found == wanted, f"{found!r} and not {wanted!r}")

    def end(self):
        print(f"{self.passed} passed, {self.failed} failed")
        sys.exit(1 if self.failed else 0)


def workplace():
    """A folder that goes when the cases end. The desk's programs may run as anybody."""
    return tempfile.TemporaryDirectory(prefix="glance-")


def bench(folder, log=b"", text=STANDARD):
    """A bench with these files, made anew."""
    folder = pathlib.Path(folder)
    folder.mkdir(exist_ok=True)
    (folder / "board.set").write_bytes(text if isinstance(text, bytes) else text.encode())
    (folder / "run.rec").write_bytes(log)
    return folder


def tool(name, *words):
    """A tool's status, output and what it says beside, but for how far it is: whether that is said goes by the clock."""
    ended = subprocess.run([sys.executable, "-B", HERE / "glance" / f"{name}.py", *map(str, words)], capture_output=True)
    return ended.returncode, ended.stdout.decode(), re.sub(r"run: page: \d+% of [\d,]+ crossings\n", "", ended.stderr.decode())
