"""What a run of `make test` says of its times, read from the log that it leaves (target/gate.log): each line behind the seconds since the start."""
import re


class GateLog:
    """proved: crate to the second at which it was proved, of those that the run itself proved; kept: crates that an earlier run on the same machine
    had proved; edits: crate to its must-fail edits that were refused; ci, gate: seconds of `rt ci` and of all."""

    def __init__(self, path):
        log = path.read_text()
        self.proved = {crate: int(s) for s, crate in re.findall(r"^(\d+) rt: (\w+) proved$", log, re.M)}
        self.kept = set(re.findall(r"^\d+ rt: (\w+) is kept: ", log, re.M))
        self.edits = {}
        for crate, edit in re.findall(r"^\d+ rt: must-fail (\w+)/(\w+)\.edit: refused", log, re.M):
            self.edits.setdefault(crate, []).append(edit)
        self.ci, self.gate = map(int, re.search(r"^gate: rt ci (\d+) s, in all (\d+) s$", log, re.M).groups())

    def all_edits(self):
        return sum(map(len, self.edits.values()))
