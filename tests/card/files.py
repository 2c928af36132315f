"""The program `card` on files: made, opened, locked, changed, cut and full."""
import os, pathlib, pty, re, select, signal, subprocess, time

from drive import CARD, DATE, EVERY, OTHER, SLOT, SLOTS, TRACK1, TRACK2, Session, Skipped, begin, both, lines, made, program, records, root, same, traced


def kept(folder):
    """A journal's file is made with so many empty slots, and kept over several runs."""
    path = folder / "journal"
    begin(lines("tell\nslots 3\n", "--new", SLOTS, path), ["held 0 0 oldest 0 newest 0", "not understood: the journal is a file"])
    same(path.read_bytes(), bytes(SLOT * SLOTS), "a new file")
    same(path.stat().st_mode & 0o777, 0o600, "mode of the file")
    same(sorted(p.name for p in folder.iterdir()), ["journal"], "files in the folder")
    same(lines(f"book {CARD} 7 250 0\nbook {OTHER} 8 100 5\n", path), ["booked 1", "booked 2"])
    same(records(path), {1: (1, 250), 2: (1, 100)})
    record = "record 03000000000000003200000009001001" + b"4111111111".hex() + "00" * 6
    begin(lines(f"book {CARD} 7 0 0\nbook {CARD} 9 50 0\nshow 3\n", path), ["refused 17: amount 0", "booked 3", record])
    begin(lines("release 2\nrelease 2\nheld\n", path), ["released 2 350", "released 0 0", "3 50 411111******1111", "done 1"])
    same(records(path), {1: (2, 250), 2: (2, 100), 3: (1, 50)})
    begin(lines("tell\nsurvey\n", path), ["held 1 50 oldest 3 newest 3", "free 2045 held 1 released 2 damaged 0 well formed"])


def round_the_ring(folder):
    """Bookings and releases that go round the ring, run by run: the file always holds what was answered."""
    path, held, newest = made(folder / "journal"), [], 0
    for turn in range(6):
        script, wanted = [], []
        for i in range(700):
            newest += 1
            held.append((newest, 1 + newest % 97))
            script.append(f"book {CARD} 7 {held[-1][1]} {(newest * 7919) % 5}")
            wanted.append(f"booked {newest}")
        free = len(held) - 300
        gone, held = held[:free], held[free:]
        script.append(f"release {gone[-1][0]}")
        wanted.append(f"released {len(gone)} {sum(a for _, a in gone)}")
        same(lines("\n".join(script) + "\n", path), wanted, f"turn {turn}")
        found = records(path)
        same({s: a for s, (state, a) in found.items() if state == 1}, dict(held), f"held after turn {turn}")
        begin(lines("held\n", path), [f"{s} {a} 411111******1111" for s, a in held] + [f"done {len(held)}"])


def swiped(folder):
    """Swipes of both tracks and bookings by turns, over several runs: the file holds what was answered, and a refused swipe changes nothing. A
    card's record is the same from either track, but for its serial."""
    path, lent = made(folder / "journal", 4), f"site {EVERY}\n{DATE}\n"
    same(lines(lent + f"swipe1 {TRACK1} 250 9\nswipe {TRACK2} 250 9\n", path)[2:], ["booked 1 days 30", "booked 2 days 30"])
    data = path.read_bytes()
    same(data[4:SLOT], data[SLOT + 4 : 2 * SLOT], "what the records hold")
    none = "refused 8: no start sentinel"
    same(lines(lent + f"swipe1 {TRACK2} 1 0\nswipe {TRACK1} 1 0\nswipe1 {TRACK1} 0 0\n", path)[2:], [none, none, "refused 17: amount 0"])
    same(path.read_bytes(), data, "the file after refusals")
    script = lent + f"book {CARD} 7 300 0\nswipe1 {TRACK1} 350 0\nswipe1 {TRACK1} 1 0\nrelease 1\nswipe1 {TRACK1} 400 0\n"
    same(lines(script, path)[2:], ["booked 3", "booked 4 days 30", "refused 18: journal full", "released 1 250", "booked 5 days 30"])
    same(records(path, 4), {2: (1, 250), 3: (1, 300), 4: (1, 350), 5: (1, 400)})
    begin(lines("held\n", path), [f"{s} {a} 411111******1111" for s, a in ((2, 250), (3, 300), (4, 350), (5, 400))] + ["done 4"])


def names_of_text(folder):
    """A journal's name is text: one of other bytes is refused with its cause, and nothing is made, no lock either."""
    path = folder / os.fsdecode(b"journal\xff")
    for words, undone in ((("--new", 4), "locked"), ((), "opened"), (("--read-only",), "opened")):
        out, err = both("tell\n", *words, path)
        same(out, f"disk error: the journal could not be {undone}\n".encode(), f"{words}")
        same(err, b"card: " + os.fsencode(path) + b": invalid filename\n", f"{words}")
        same(list(folder.iterdir()), [], "files in the folder")


def untouched(folder):
    """A file of a wrong length or form is never touched: the journal's commands answer 16, and a wrong length is said."""
    wrong = "refused 16: journal not well formed"
    script = f"book {CARD} 7 1 0\nrelease 1\nshow 1\ntell\nheld\nswipe - 0 1 0\nswipe1 - 0 1 0\n"
    good = bytearray(SLOT * SLOTS)
    cases = {"no bytes": b"", "one byte": b"\0", "31 bytes": bytes(31), "100 bytes": bytes(100), "a slot too many": bytes(SLOT * 2049), "long": b"x" * 200000}
    for name, at, value in (("a serial alone", 0, 1), ("the last byte", SLOT * SLOTS - 1, 1), ("a state", 15, 1)):
        damaged = bytearray(good)
        damaged[at] = value
        cases[name] = bytes(damaged)
    for name, data in cases.items():
        path = folder / "journal"
        path.write_bytes(data)
        before = path.stat()
        out, err = both(script, path)
        begin(out.decode().splitlines(), [wrong] * 7, name)
        length = "over 65536 bytes" if len(data) > SLOT * SLOTS else "1 byte" if len(data) == 1 else f"{len(data)} bytes"
        told = f"card: {path}: {length}; a journal has 32 for each of its 1 to 2048 slots\n"
        same(err.decode(), "" if len(data) == SLOT * SLOTS else told, f"what is said of {name}")
        same(path.read_bytes(), data, f"bytes of {name}")
        same(path.stat().st_mtime_ns, before.st_mtime_ns, f"time of {name}")
    begin(lines("survey\n", path), ["damaged 0 " + "00" * 15 + "01" + "00" * 16, "free 2047 held 0 released 0 damaged 1 not well formed"])
    (folder / "short").write_bytes(bytes(64))
    begin(lines(f"tell\nbook {CARD} 7 5 0\n", folder / "short"), ["held 0 0 oldest 0 newest 0", "booked 1"], "a file of two slots is a journal")
    same(len((folder / "short").read_bytes()), 64)


def last_serial(folder):
    """A journal at the last serial refuses with 19."""
    path = folder / "journal"
    record = (4294967295).to_bytes(4, "little") + bytes(4) + (1).to_bytes(4, "little") + bytes(2) + bytes([16, 1]) + b"4111111111" + bytes(6)
    path.write_bytes(record)
    used_up = "refused 19: serials used up"
    begin(lines(f"{DATE}\nbook {CARD} 7 1 0\nswipe - 0 1 0\nswipe1 - 0 1 0\nheld\nrelease 4294967295\ntell\nbook {CARD} 7 1 0\n", path),
          [DATE, used_up, used_up, used_up, "4294967295 1 411111******1111", "done 1", "released 1 1", "held 0 0 oldest 0 newest 4294967295", used_up])


def no_file(folder):
    """A path that can't be opened: that is said with its cause, nothing is made, and no command is answered."""
    hint = "card: a journal is made by card --new SLOTS JOURNAL"
    missing = ["No such file or directory", hint]
    for path, cause in ((folder / "mistyped", missing), (folder / "none/journal", missing), (folder, ["Is a directory"])):
        out, err = both(f"book {CARD} 7 1 0\ntell\nluhn 18\n", path)
        same(out, b"disk error: the journal could not be opened\n", str(path))
        same(err.decode().splitlines(), [f"card: {path}: {cause[0]}"] + cause[1:], "cause")
    for name, cause in (("", "card: the journal's name is empty"), ("/" + "x" * 5000, "card: the journal's name: File name too long")):
        same(both("tell\n", name), (b"disk error: the journal could not be opened\n", cause.encode() + b"\n"), "a name that is none")
    out, err = both("tell\n", "--new", 4, folder / "none/journal")
    same(err.decode(), f"card: {folder}/none/journal: No such file or directory\n", "cause")
    same(sorted(folder.iterdir()), [], "files in the folder")


def options(folder):
    """An option is no journal's name: what isn't understood is said in one line with the usage, and nothing is made."""
    usage = "; usage: card [JOURNAL], card --new SLOTS JOURNAL, card --read-only JOURNAL, card --help, card --version"
    slots, missing, many = "SLOTS is a number from 1 to 2048", "the journal's name is missing", "too many words"
    cases = {
        slots: ("--new", "--new J", "--new 0 J", "--new 2049 J", "--new -1 J", "--new 4x J"),
        missing: ("--new 4", "--read-only", "--", "--new 4 --"),
        many: ("J K", "--new 4 J K", "--read-only J K", "--help J", "--version J", "-- J K"),
    } | {f"option not understood: {word}": (f"{word} J", word, f"--new 4 {word}", f"--read-only {word} J") for word in ("--nwe", "-x", "-")}
    here = os.getcwd()
    os.chdir(folder)
    try:
        for why, asked in cases.items():
            for words in asked:
                same(both("tell\n", *words.split()), (b"", f"card: {why}{usage}\n".encode()), words)
        same(sorted(folder.iterdir()), [], "files in the folder")
        header = (root / "include/goltwarden.h").read_text()
        same(lines("", "--version"), ["goltwarden " + re.search(r"#define GW_VERSION (\d+)", header)[1]])
        same(lines("luhn 18\n", "--help")[0].startswith("card "), True, "help")
        begin(lines("tell\n", "--new", 4, "--", "--help"), ["held 0 0 oldest 0 newest 0"])
        begin(lines("tell\n", "--", "--help"), ["held 0 0 oldest 0 newest 0"])
        begin(lines("tell\n", "--read-only", "--", "--help"), ["held 0 0 oldest 0 newest 0"])
        same([p.name for p in folder.iterdir()], ["--help"], "files in the folder")
    finally:
        os.chdir(here)


def never_replaced(folder):
    """A new journal replaces nothing: no journal, no other file, no link, even one that leads nowhere."""
    path, text, loose, link = made(folder / "journal", 4), folder / "text", folder / "loose", folder / "link"
    same(lines(f"book {CARD} 7 250 0\n", path), ["booked 1"])
    text.write_text("kept")
    loose.symlink_to(folder / "nowhere")
    link.symlink_to(path)
    before = {p: p.read_bytes() for p in (path, text)}
    for there in (path, text, loose, link, folder):
        out, err = both(f"book {OTHER} 7 1 0\n", "--new", 4, there)
        same((out, err.decode()), (b"disk error: the journal could not be made\n", f"card: {there}: File exists\n"), str(there))
    same({p: p.read_bytes() for p in (path, text)}, before, "what was there")
    same(sorted(p.name for p in folder.iterdir()), ["journal", "link", "loose", "text"], "files in the folder")
    same(both("tell\n", loose)[0], b"disk error: the journal could not be opened\n", "a link that leads nowhere")


def no_descriptors(folder):
    """Standard input, output or error missing: nothing of what is said there goes into the journal."""
    path = made(folder / "journal", 4)
    script = folder / "script"
    script.write_text(f"book {CARD} 7 250 0\n" * 6 + "x\n" * 2000)
    taken = records(path, 4)
    for closed in ("<&-", ">&-", "2>&-", ">&- 2>&-", "<&- >&-", "<&- >&- 2>&-"):
        for given in (path, folder / "none", folder):
            opened = closed if "<" in closed else f'< "{script}" {closed}'
            subprocess.run(["sh", "-c", f'exec "$@" {opened}', "sh", *program, str(given)], stdout=subprocess.PIPE, stderr=subprocess.PIPE, timeout=600)
        same(len(path.read_bytes()), 4 * SLOT, f"length after {closed}")
        if ">&-" in closed.replace("2>&-", ""):
            same(records(path, 4), taken, f"payments taken that nobody hears of, after {closed}")
        taken = records(path, 4)
        same(lines("survey\n", path)[-1].endswith(" damaged 0 well formed"), True, f"well formed after {closed}")
    same(sorted(p.name for p in folder.iterdir()), ["journal", "script"], "files in the folder")


# ---- one process at a time


def in_use(path, pid):
    """What a second process answers."""
    out, err = both(f"book {OTHER} 7 1 0\ntell\n", path)
    same((out, err.decode()), (b"disk error: the journal is in use\n", f"card: {path} is in use by process {pid}\n"), "a second process")


def one_at_a_time(folder):
    """A second process on a journal is refused with a clear line, by whatever link it comes, until the first has ended or was killed."""
    path, link, other = made(folder / "journal", 8), folder / "link", folder / "other"
    link.symlink_to("journal")
    other.symlink_to(folder / "link")
    for end in (Session.end, Session.kill, Session.end):
        for first in (path, link, other):
            held = Session(first)
            serial = int(held.ask(f"book {CARD} 7 1 0").split()[1])
            for second in (path, link, other):
                in_use(second, held.work.pid)
            same(held.ask(f"release {serial}"), "released 1 1", "the first goes on")
            end(held)
    same(len(lines("tell\n", path)), 1, "after all of them")
    same(sorted(p.name for p in folder.iterdir()), ["journal", "link", "other"], "files in the folder")


def boot():
    return pathlib.Path("/proc/sys/kernel/random/boot_id").read_text().strip()


def started(pid):
    return pathlib.Path(f"/proc/{pid}/stat").read_text().rpartition(")")[2].split()[19]


def queued(pid, start, boot_id):
    """A line of the lock's file."""
    return f"{pid:<20} {start:<20} {boot_id}".ljust(127).encode() + b"\n"


def lock_left(folder):
    """A line of a process that no longer lives is passed over: of another boot, of a number that another process has now, a zombie's, none
    at all. One of a process that lives is not, whatever its name."""
    path, lock = made(folder / "journal", 8), folder / "journal.lock"
    zombie = subprocess.Popen(["true"])
    while pathlib.Path(f"/proc/{zombie.pid}/stat").read_text().rpartition(")")[2].split()[0] != "Z":
        time.sleep(0.01)
    me = os.getpid()
    gone = [queued(me, started(me), "0" * 8 + boot()[8:]), queued(me, int(started(me)) + 1, boot()), queued(zombie.pid, started(zombie.pid), boot()),
            queued(4194305, 7, boot()), queued("self", 7, boot()), queued("", "", ""), b"x" * 128, bytes(128)]
    for lines_left in [[line] for line in gone] + [gone, gone * 300]:
        lock.write_bytes(b"".join(lines_left))
        begin(lines("tell\n", path), ["held 0 0 oldest 0 newest 0"], "after lines that nobody living wrote")
        same(lock.exists(), False, "the lock's file")
    zombie.wait()
    named = folder / ") R 1 (x"
    named.symlink_to("/bin/sleep")
    sleeps = subprocess.Popen([str(named), "600"])
    try:
        while ") R 1 (x" not in pathlib.Path(f"/proc/{sleeps.pid}/stat").read_text():
            time.sleep(0.01)
        for pid in (me, sleeps.pid):
            lock.write_bytes(b"".join(gone) + queued(pid, started(pid), boot()))
            before = lock.read_bytes()
            in_use(path, pid)
            same(lock.read_bytes()[: len(before)], before, "lines that were there")
        same(len(lock.read_bytes()), len(before) + 128, "a line more")
    finally:
        sleeps.kill()
        sleeps.wait()


def pair(*args):
    """Two processes started at once, each asked to book: the processes, and their first answers."""
    both_of = [subprocess.Popen(program + [str(a) for a in args], stdin=subprocess.PIPE, stdout=subprocess.PIPE, stderr=subprocess.DEVNULL) for _ in range(2)]
    for amount, one in enumerate(both_of, 1):
        try:
            one.stdin.write(f"book {CARD} 7 {amount} 0\n".encode())
            one.stdin.flush()
        except BrokenPipeError:
            pass
    # whoever has the journal keeps it until both have answered
    found = [one.stdout.readline().decode().strip() for one in both_of]
    for one in both_of:
        one.communicate(timeout=600)
    return found


def two_starts(folder):
    """Two processes started at once, a hundred times: one answers a booking, which is in the file, and the other is refused."""
    path = made(folder / "journal", 100)
    for serial in range(1, 101):
        found = pair(path)
        same(sorted(found), [f"booked {serial}", "disk error: the journal is in use"], f"answers at start {serial}")
        same(records(path, 100)[serial], (1, 1 + found.index(f"booked {serial}")), f"serial {serial}")


def two_makers(folder):
    """Two processes that make the same journal at once, a hundred times: one makes it, and what it booked is in the file."""
    for turn in range(100):
        path = folder / f"journal{turn}"
        found = pair("--new", 4, path)
        same(sorted(found), ["booked 1", "disk error: the journal is in use"], f"answers at turn {turn}")
        same(records(path, 4), {1: (1, 1 + found.index("booked 1"))}, f"records at turn {turn}")


# ---- a file that is only read


def only_read(folder):
    """Opened for reading alone: everything is told, nothing is changed, beside a process that changes it, on a medium that can't be written."""
    disk = folder / "disk"
    disk.mkdir()
    path = made(disk / "journal", 4)
    same(lines(f"book {CARD} 7 250 0\nbook {OTHER} 7 1 0\nrelease 1\n", path), ["booked 1", "booked 2", "released 1 250"])
    tells = "survey\nheld\ntell\nshow 2\n"
    record = "record 02000000000000000100000007000F01" + b"3782820005".hex() + "00" * 6
    told = ["free 2 held 1 released 1 damaged 0 well formed", "2 1 378282*****0005", "done 1", "held 1 1 oldest 2 newest 2", record]
    path.chmod(0o400)

    def reads():
        before = path.read_bytes(), path.stat().st_mtime_ns, sorted(disk.iterdir())
        begin(lines(tells, "--read-only", path), told)
        alone = "not understood: the journal is opened for reading alone"
        changes = f"site {EVERY}\nbook {CARD} 7 1 0\nswipe {TRACK2} 1 0\nswipe1 {TRACK1} 1 0\nrelease 2\n"
        same(lines(changes, "--read-only", path)[1:], [alone] * 4, "changes answered")
        same((path.read_bytes(), path.stat().st_mtime_ns, sorted(disk.iterdir())), before, "the file")

    reads()
    held = Session(path)
    begin([held.ask("tell")], told[3:4])
    reads()
    held.end()
    mounted(disk, "size=64k")
    try:
        path = made(disk / "journal", 4)
        same(lines(f"book {CARD} 7 250 0\nbook {OTHER} 7 1 0\nrelease 1\n", path), ["booked 1", "booked 2", "released 1 250"])
        subprocess.run(["mount", "-o", "remount,ro", str(disk)], check=True)
        reads()
        out, err = both("tell\n", path)
        same((out, err.decode()), (b"disk error: the journal could not be opened\n", f"card: {path}: Read-only file system\n"), "opened for changes")
    finally:
        subprocess.run(["umount", str(disk)], check=True)


# ---- a terminal


def typed(wanted, *args):
    """A run at a terminal: what it shows until `wanted` stands there, or for ten seconds."""
    pid, terminal = pty.fork()
    if pid == 0:
        os.execv(program[0], program + [str(a) for a in args])
    shown, deadline = b"", time.time() + 10
    while wanted not in shown and time.time() < deadline:
        if select.select([terminal], [], [], 0.1)[0]:
            shown += os.read(terminal, 4096)
    os.write(terminal, b"\x04")
    os.waitpid(pid, 0)
    os.close(terminal)
    return shown.replace(b"\r\n", b"\n").decode()


def at_terminal(folder):
    """At a terminal the journal's name, slots and held count come first; elsewhere they don't."""
    path, damaged, short = made(folder / "journal", 4), folder / "damaged", folder / "short"
    same(lines(f"book {CARD} 7 250 0\n", path), ["booked 1"])
    damaged.write_bytes(bytes(31) + b"x")
    short.write_bytes(bytes(33))
    cases = {
        (path,): f"{path}: 4 slots, 1 held\n",
        ("--read-only", path): f"{path}: 4 slots, 1 held\n",
        ("--new", 7, folder / "new"): f"{folder}/new: 7 slots, 0 held\n",
        (damaged,): f"{damaged}: 1 slot, not well formed\n",
        (short,): f"card: {short}: 33 bytes; a journal has 32 for each of its 1 to 2048 slots\n",
        (): "a journal in memory: 2048 slots, 0 held\n",
    }
    for args, wanted in cases.items():
        shown = typed(wanted.encode().replace(b"\n", b"\r\n"), *args)
        same(shown.startswith(wanted), True, f"what is shown: {shown!r}, wanted {wanted!r}")


# ---- cuts and errors of the disk


def mounted(folder, options):
    """A file system of the test's own."""
    if os.geteuid() != 0:
        raise Skipped("a file system can be mounted by root alone")
    done = subprocess.run(["mount", "-t", "tmpfs", "-o", options, "none", str(folder)], capture_output=True)
    if done.returncode != 0:
        raise Skipped("no file system can be mounted here")


def filled(path):
    """A file that takes all the room that is left."""
    rest = os.open(path, os.O_WRONLY | os.O_CREAT)
    try:
        while os.write(rest, bytes(4096)) > 0:
            pass
    except OSError:
        os.close(rest)


def full_disk(folder):
    """A full disk: the error is said, nothing is answered as booked, and no half-made file stands."""
    disk = folder / "disk"
    disk.mkdir()
    mounted(disk, "size=32k")
    try:
        path, rest = disk / "journal", disk / "rest"
        out, err = both(f"book {CARD} 7 1 0\n", "--new", SLOTS, path)
        same((out, err.decode()), (b"disk error: the journal could not be made\n", f"card: {path}: No space left on device\n"))
        same(sorted(disk.iterdir()), [], "files on the full disk")
        made(path, 4)
        filled(rest)
        out, err = both(f"tell\nbook {CARD} 7 1 0\n", path)
        same((out, err.decode()), (b"disk error: the journal could not be locked\n", f"card: {path}: No space left on device\n"), "no room for the lock")
        begin(lines("tell\n", "--read-only", path), ["held 0 0 oldest 0 newest 0"])
        rest.unlink()
        same(lines(f"book {CARD} 7 1 0\n", path), ["booked 1"])
        # a file with holes: what was read is written back at the start, so that the disk is full then and not at a payment
        path.unlink()
        path.write_bytes(b"")
        os.truncate(path, SLOT * SLOTS)
        same(lines(f"tell\nbook {CARD} 7 1 0\n", path), ["disk error: the journal could not be written"])
        same(records(path), {}, "what the file holds")
    finally:
        subprocess.run(["umount", str(disk)], check=True)


def killed(folder):
    """A kill in the middle of a long script: every payment that was answered as booked is in the file."""
    for turn, wait in enumerate((1, 40, 400)):
        path = made(folder / f"journal{turn}")
        script = "".join(f"book {CARD} 7 {1 + i % 97} {i}\n" + ("release %d\n" % (i - 20) if i % 50 == 49 else "") for i in range(2000))
        work = subprocess.Popen(program + [str(path)], stdin=subprocess.PIPE, stdout=subprocess.PIPE, stderr=subprocess.DEVNULL, start_new_session=True)
        os.set_blocking(work.stdin.fileno(), False)
        data, sent, got = script.encode(), 0, b""
        os.set_blocking(work.stdout.fileno(), False)
        deadline = time.time() + 300
        while got.count(b"\n") < wait and time.time() < deadline:
            try:
                sent += work.stdin.write(data[sent : sent + 4096]) or 0
                work.stdin.flush()
            except BlockingIOError:
                pass
            got += work.stdout.read() or b""
        os.killpg(work.pid, signal.SIGKILL)
        work.wait()
        os.set_blocking(work.stdout.fileno(), True)
        got += work.stdout.read()
        work.stdout.close()
        try:
            work.stdin.close()
        except OSError:
            pass
        whole = got[: got.rfind(b"\n") + 1].decode().splitlines()
        booked = [int(l.split()[1]) for l in whole if l.startswith("booked ")]
        same(booked, list(range(1, len(booked) + 1)), "serials answered")
        assert len(booked) >= min(wait, 1), "nothing was booked before the kill"
        found = records(path)
        for s in booked:
            same(found.get(s, (0, 0))[1], 1 + (s - 1) % 97, f"the amount of serial {s}, which was answered as booked")
        freed = sum(int(l.split()[1]) for l in whole if l.startswith("released "))
        for s in range(1, freed + 1):
            same(found[s][0], 2, f"state of serial {s}, which was answered as released")
        same(lines("survey\n", path)[-1].endswith(" damaged 0 well formed"), True, "well formed after the kill")


def calls(log):
    """The writes in place, syncs and answers of a trace, in their order."""
    return re.findall(r'^(pwrite64|fsync|write\(1, "(?:held|booked|released))', log.read_text(), re.M)


def in_order(folder):
    """What was read is synced before the first answer; changes are written in the order of serials, no more than a sector at a time, each
    synced before its answer."""
    path, log = made(folder / "journal"), folder / "log"
    script = f"site {EVERY}\n{DATE}\ntell\n" + (f"book {CARD} 7 1 0\n" * 2 + f"swipe {TRACK2} 1 0\nswipe1 {TRACK1} 1 0\n") * 10 + "release 40\n"
    subprocess.run(traced("-o", str(log), "-e", "trace=pwrite64,fsync,write") + [str(path)], input=script.encode(), stdout=subprocess.PIPE, check=True)
    change, says = ["pwrite64", "fsync"], 'write(1, "'
    same(calls(log), change + [says + "held"] + (change + [says + "booked"]) * 40 + change * 3 + [says + "released"])
    places = [tuple(int(x) for x in l.rsplit("=", 1)[0].strip().rstrip(")").split(", ")[-2:]) for l in log.read_text().splitlines() if "pwrite64(" in l]
    same(places, [(SLOT * SLOTS, 0)] + [(32, 32 * k) for k in range(40)] + [(512, 0), (512, 512), (256, 1024)], "lengths and places")


def synced_at_start(folder):
    """After a kill between a write and its sync, and after a sync that failed, the next start writes back what it read and syncs it before
    its first answer; where that fails, nothing is answered."""
    path, log = made(folder / "journal", 4), folder / "log"
    for turn, fault in enumerate(("signal=KILL", "error=EIO")):
        # the second sync is that of the booking: the first is the start's
        fails = traced("-o", str(log), "-e", "trace=pwrite64,fsync", "-e", f"inject=fsync:{fault}:when=2")
        done = subprocess.run(fails + [str(path)], input=f"book {CARD} 7 {turn + 1} 0\ntell\n".encode(), stdout=subprocess.PIPE, stderr=subprocess.DEVNULL)
        same(calls(log), ["pwrite64", "fsync"] * 2, "calls before the fault")
        same(b"booked" in done.stdout or b"held" in done.stdout, False, f"answers: {done.stdout}")
        if turn == 1:
            same(done.stdout.splitlines()[0], b"disk error: the journal could not be synced")
        out = subprocess.run(traced("-o", str(log), "-e", "trace=pwrite64,fsync", "-e", "inject=fsync:error=EIO:when=1") + [str(path)],
                             input=b"tell\n", stdout=subprocess.PIPE, stderr=subprocess.DEVNULL).stdout
        same(out, b"disk error: the journal could not be synced\n", "a start whose sync fails")
        done = subprocess.run(traced("-o", str(log), "-e", "trace=pwrite64,fsync,write") + [str(path)], input=b"tell\n", stdout=subprocess.PIPE, check=True)
        same(calls(log), ["pwrite64", "fsync", 'write(1, "held'], "calls of the next start")
        begin(done.stdout.decode().splitlines(), [f"held {turn + 1} {turn * 2 + 1} oldest 1 newest {turn + 1}"], "what the next start tells")


TESTS = [kept, round_the_ring, swiped, names_of_text, untouched, last_serial, no_file, options, never_replaced, no_descriptors, one_at_a_time, lock_left, two_starts,
         two_makers, only_read, at_terminal, full_disk, killed, in_order, synced_at_start]
