"""What the tests of the program `card` share: a run of it, a session with it, and what is expected."""
import os, pathlib, signal, subprocess

here = pathlib.Path(__file__).resolve().parent
root = here.parent.parent
program = [str(root / "tests/x86"), str(root / "crates/card/out/card")]

SLOT, SLOTS = 32, 2048
CARD, OTHER = "4111111111111111", "378282246310005"
# the stripes of CARD: `;4111111111111111=2512101?` and `%B4111111111111111^DOE/JANE^2512101?`, each with its count of bits
TRACK2 = "8B841042082184104208A1891A4480E123 135"
TRACK1 = "4531351A8D46A3D168341A8D46A3D1A88FFC2A3D556177C927AD44A55148F48300 259"
# a table whose one range fits every PAN, label 7
EVERY = "00000000FFFFFFFF07000D1300000000"
# a day on which CARD has 30 days left: the command, and its answer too
DATE = "date 2025 12 1"


class Skipped(Exception):
    pass


def both(script, *args):
    """What the program writes to a script, as bytes: on standard output, and on standard error."""
    if isinstance(script, str):
        script = script.encode()
    done = subprocess.run(program + [str(a) for a in args], input=script, stdout=subprocess.PIPE, stderr=subprocess.PIPE, timeout=600)
    same(done.returncode, 0, "status")
    return done.stdout, done.stderr


def run(script, *args):
    return both(script, *args)[0]


def lines(script, *args):
    return run(script, *args).decode("ascii").splitlines()


def made(path, slots=SLOTS):
    """A new journal's file."""
    same(both("", "--new", slots, path), (b"", b""), "a new journal")
    return path


class Session:
    """A run of the program that is asked line by line; its errors go to the standard error of the tests, unless `quiet`."""

    def __init__(self, *args, before=(), quiet=False):
        command = list(before) + program + [str(a) for a in args]
        errors = subprocess.DEVNULL if quiet else None
        self.work = subprocess.Popen(command, stdin=subprocess.PIPE, stdout=subprocess.PIPE, stderr=errors, start_new_session=True)

    def ask(self, line):
        self.work.stdin.write(line.encode() + b"\n")
        self.work.stdin.flush()
        return self.work.stdout.readline().decode().rstrip("\n")

    def end(self):
        found = self.work.communicate(timeout=600)[0]
        return found.decode().splitlines()

    def kill(self):
        os.killpg(self.work.pid, signal.SIGKILL)
        self.work.wait()
        self.work.stdout.close()
        try:
            self.work.stdin.close()
        except OSError:
            pass


def needs(command):
    """The test needs a command beside the program's own: it is there, or the test fails."""
    done = subprocess.run([str(root / "tests/needs"), command], capture_output=True, text=True)
    same(done.returncode, 0, done.stdout.strip() or command)


def traced(*words):
    """The words that run the program with its calls of the system traced, or changed."""
    if os.uname().machine != "x86_64":
        raise Skipped("the program is emulated here, and its calls of the system can't be traced")
    needs("strace")
    return ["strace", *words, program[1]]


def same(found, wanted, what="answer"):
    if found != wanted:
        raise AssertionError(f"{what}: expected {wanted!r}, found {found!r}")


def begin(found, wanted, what="answer"):
    """Each answer is the wanted one, or goes on after it."""
    same(len(found), len(wanted), f"how many answers, of {found}")
    for i, (f, w) in enumerate(zip(found, wanted)):
        if f != w and not f.startswith(w + " "):
            same(f, w, f"{what} {i + 1}")


def records(path, slots=SLOTS):
    """The records of a journal's file, by serial: state and amount."""
    data = path.read_bytes()
    same(len(data), SLOT * slots, "length of the file")
    out = {}
    for at in range(0, len(data), SLOT):
        slot = data[at : at + SLOT]
        if any(slot):
            serial = int.from_bytes(slot[0:4], "little")
            same(at, SLOT * ((serial - 1) % slots), "slot")
            out[serial] = (slot[15], int.from_bytes(slot[8:12], "little"))
    return out
