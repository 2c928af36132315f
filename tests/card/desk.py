"""Tests of the commands as people expect them: answers that arrive, lines as they are typed, help, dates, tables, the hot list, dumps, box and host."""
import collections, datetime, functools, operator, os, random, struct, subprocess, time

from drive import CARD, DATE, EVERY, OTHER, SLOT, SLOTS, TRACK1, TRACK2, Session, lines, program, records, run, same, traced


def journal_at(path, slots=SLOTS):
    """An empty journal's file."""
    path.write_bytes(bytes(SLOT * slots))
    return path


def unheard(script, *args, **where):
    """What the program writes to standard error where standard output takes nothing."""
    done = subprocess.run(program + [str(a) for a in args], input=script.encode(), stderr=subprocess.PIPE, timeout=600, **where)
    return done.stderr.decode().splitlines()


# ---- answers


def few_writes(folder):
    """Answers are written in large pieces: all of `held` in a few writes, and each command's before the next line is read."""
    log = folder / "log"
    script = f"book {CARD} 7 1 0\n" * SLOTS + "held\n"
    done = subprocess.run(traced("-o", str(log), "-e", "trace=write"), input=script.encode(), stdout=subprocess.PIPE, check=True)
    same(len(done.stdout.splitlines()), 2 * SLOTS + 1, "how many lines")
    writes = [l for l in log.read_text().splitlines() if l.startswith("write(1,")]
    same(len(writes) <= SLOTS + 4, True, f"{len(writes)} writes are few")


def each_in_time(folder):
    """An answer is there before the next line is sent."""
    work = subprocess.Popen(program, stdin=subprocess.PIPE, stdout=subprocess.PIPE)
    for serial in (1, 2, 3):
        work.stdin.write(f"book {CARD} 7 1 0\n".encode())
        work.stdin.flush()
        same(work.stdout.readline(), f"booked {serial}\n".encode())
    same(work.communicate(timeout=60)[0], b"")


def full_output(folder):
    """Standard output on a full disk: the first booking is told on standard error with the cause, and no other is taken."""
    path = journal_at(folder / "journal")
    with open("/dev/full", "wb") as full:
        found = unheard(f"book {CARD} 7 250 0\nbook {CARD} 7 100 0\n" * 50, path, stdout=full)
    same(found, ["card: standard output: No space left on device", "card: not written there:", "booked 1"])
    same(records(path), {1: (1, 250)})


def closed_pipe(folder):
    """Standard output a closed pipe, with SIGPIPE ignored: the same."""
    path = journal_at(folder / "journal")
    reading, writing = os.pipe()
    os.close(reading)
    found = unheard(f"book {CARD} 7 250 0\nrelease 1\n", path, stdout=writing, restore_signals=False)
    os.close(writing)
    same(found, ["card: standard output: Broken pipe", "card: not written there:", "booked 1"])
    same(records(path), {1: (1, 250)})


def long_unheard(folder):
    """An answer of more than one piece that can't be written: all of it is heard of."""
    path = folder / "journal"
    head = [s.to_bytes(4, "little") + bytes(4) + (9).to_bytes(4, "little") + bytes(2) for s in range(1, SLOTS + 1)]
    path.write_bytes(b"".join(h + bytes([16, 1]) + b"4111111111" + bytes(6) for h in head))
    with open("/dev/full", "wb") as full:
        found = unheard("held\nrelease 1\n", path, stdout=full)
    same(found[2:], [f"{s} 9 411111******1111 clock 0 label 0" for s in range(1, SLOTS + 1)] + [f"done {SLOTS}"])
    same(lines("tell\n", path), [f"held {SLOTS} {9 * SLOTS} oldest 1 newest {SLOTS} left 0"])


# ---- lines


def crlf(folder):
    """A script whose lines end in CR LF is answered as one whose lines end in LF."""
    script = f"slots 3\nbook {CARD} 7 250 0\n\n# a comment\nW1: tell\nheld\nnothing\niban GB82 WEST 1234 5698 7654 32\nhelp\n"
    same(run(script.replace("\n", "\r\n")), run(script))


def groups(folder):
    """An IBAN and a reference are understood however they are grouped."""
    for command, text, wanted in (
        ("iban", "GB82WEST12345698765432", "passes"),
        ("creditor", "RF18539007547034", "passes"),
        ("creditor-make", "539007547034", "pair 18"),
        ("iban-make GB", "WEST12345698765432", "pair 82"),
    ):
        for size in (1, 2, 3, 4, 5, 40):
            for gap in (" ", "  "):
                parts = [text[i : i + size] for i in range(0, len(text), size)]
                same(lines(f"{command} {gap.join(parts)} \n"), [wanted], f"{command} in groups of {size}")


def every_example(folder):
    """Each line of `help` begins with a command, whose example is understood and is answered as the line says."""
    known = lines("help\n")
    same(len(known) >= 30, True, "how many commands")
    before = f"slots 4\nbook {CARD} 7 250 0\nsite {EVERY}\nhot 16 4012888888881881\n{DATE}\n"
    for line in known:
        usage, rest = line.split(" -> ", 1)
        answer, example = rest.rsplit(", e.g. ", 1)
        same(example.split()[0], usage.split()[0], "the example's command")
        found = lines(before + example + "\n")[5:]
        same(found[0].startswith(("not understood", "refused")), False, f"{example}: {found[0]}")
        first = answer.split()[0]
        if first.islower() and first not in ("as", "these", "damaged"):
            same(found[0].split()[0], first, f"{example}: its answer's first word")


def nearest(folder):
    """An unknown command is answered with the nearest one."""
    for word, wanted in (
        ("relase", "release"), ("bok", "book"), ("luhnmake", "luhn-make"), ("swype", "swipe"), ("survy", "survey"), ("Tell", "tell"),
        ("swype1", "swipe1"), ("trac1", "track1"), ("Layout1", "layout1"), ("leger", "ledger"), ("taken", "take"),
        ("hto", "hot"), ("Hot", "hot"), ("lsted", "listed"), ("dat", "date"), ("Date", "date"),
    ):
        same(lines(f"{word} 1\n"), [f"not understood: no such command (nearest: {wanted}; help lists all)"])
    same(lines("x" * 100000 + "\n")[0].startswith("not understood: no such command (nearest: "), True, "a long word")


# ---- stripes


def stream(text, reverse, width=7):
    """A text with its sentinels as bits of track 1, or of track 2 where a character has 5, its LRC behind it, forward or reversed: its bytes, and how
    many bits."""
    numbers = [ord(c) - {7: 32, 5: 48}[width] for c in text]
    numbers.append(functools.reduce(operator.xor, numbers))
    data = [f"{n:0{width - 1}b}"[::-1] for n in numbers]
    bits = "".join(d + str((d.count("1") + 1) % 2) for d in data)[:: -1 if reverse else 1]
    return f"{int(bits[::-1], 2).to_bytes((len(bits) + 7) // 8, 'little').hex().upper()} {len(bits)}"


# ---- dates

FIRST, LAST, ONE_DAY = datetime.date(2000, 1, 1), datetime.date(2099, 12, 31), datetime.timedelta(days=1)
NO_DATE = "refused 23: date outside 2000 to 2099, or no real day"
EXPIRED = "refused 24: card expired"


def date(day):
    """The command that sets a date, which is its answer too."""
    return f"date {day.year} {day.month} {day.day}"


def last_day(expiry):
    """The last day on which a card is good, of an expiry YYMM: the day before the next month begins."""
    year, month = 2000 + int(expiry[:2]), int(expiry[2:])
    return datetime.date(year + month // 12, month % 12 + 1, 1) - ONE_DAY


def swiped(serial, expiry, today):
    """What a swipe answers that only the expiry could still refuse, and that would be booked with this serial."""
    if not expiry:
        return f"booked {serial} no expiry"
    days = (last_day(expiry) - today).days
    return f"booked {serial} days {days}" if days >= 0 else EXPIRED


def any_day(chance):
    return FIRST + chance.randrange(36525) * ONE_DAY


def day_around(chance, expiry):
    """A day of the century: one beside the last on which a card is good, or any."""
    beside = last_day(expiry) + chance.randint(-2, 2) * ONE_DAY if expiry else LAST
    return min(max(chance.choice([beside, any_day(chance)]), FIRST), LAST)


def is_real(year, month, day):
    try:
        return FIRST <= datetime.date(year, month, day) <= LAST
    except ValueError:
        return False


def every_day(folder):
    """Every day from 2000 to 2099 is taken, and none of the years, months and days beside them."""
    asked = [(y, m, d) for y in range(1999, 2102) for m in range(14) for d in range(33)]
    found = lines("".join(f"date {y} {m} {d}\n" for y, m, d in asked))
    for (y, m, d), answer in zip(asked, found):
        same(answer, f"date {y} {m} {d}" if is_real(y, m, d) else NO_DATE, f"date {y} {m} {d}")
    same((len(found), sum(answer != NO_DATE for answer in found)), (len(asked), 36525), "how many answers, and days taken")


def every_expiry(folder):
    """Each month of the century as an expiry, on either track: the card is good through its last day and has the days left that the calendar counts,
    whatever the clock says. A card without an expiry has no number of days."""
    chance, script, wanted = random.Random(7), [f"site {EVERY}"], ["site 1 records"]
    for expiry in [f"{year:02}{month:02}" for year in range(100) for month in range(1, 13)] + [""]:
        last = last_day(expiry) if expiry else LAST
        for today in sorted({FIRST, LAST, last - ONE_DAY, last, min(last + ONE_DAY, LAST), any_day(chance)}):
            swipes = stream(f";{CARD}={expiry or '='}101?", False, 5), stream(f"%B{CARD}^DOE/JANE^{expiry or '^'}101?", False)
            clocks = chance.choices([0, 1700000000, 4294967295], k=2)
            script += ["slots 2", date(today), f"swipe {swipes[0]} 1 {clocks[0]}", f"swipe1 {swipes[1]} 1 {clocks[1]}"]
            wanted += ["slots 2", date(today), swiped(1, expiry, today), swiped(2, expiry, today)]
    found = lines("\n".join(script) + "\n")
    for line, f, w in zip(script, found, wanted):
        same(f, w, line)
    same(len(found), len(wanted), "how many answers")


def date_in_memory(folder):
    """The date stands beside any journal, one that is only read too, is gone at the end, and a card that has expired changes no file."""
    path = journal_at(folder / "journal", 4)
    swipes = f"swipe {TRACK2} 1 0\nswipe1 {TRACK1} 1 0\n"
    same(lines(f"site {EVERY}\n{DATE}\n{swipes}", path)[1:], [DATE, "booked 1 days 30", "booked 2 days 30"])
    data = path.read_bytes()
    same(lines(f"site {EVERY}\n{swipes}", path)[1:], [NO_DATE] * 2, "the next run")
    same(lines(f"site {EVERY}\ndate 2026 1 1\n{swipes}", path)[1:], ["date 2026 1 1"] + [EXPIRED] * 2)
    same(lines(f"{DATE}\ndate 2025 13 1\n", "--read-only", path), [DATE, NO_DATE])
    same(path.read_bytes(), data, "the file")


def date_of_today(folder):
    """The line for today, made as the manual says, is taken."""
    line = subprocess.run(["date", "+date %Y %m %d"], stdout=subprocess.PIPE, check=True).stdout.decode()
    same(lines(line), [date(datetime.date(*map(int, line.split()[1:])))])


# ---- track 1


def passes(pan):
    """Whether a PAN passes Luhn: every second digit from the right is doubled, and the digits add up to a multiple of 10."""
    return sum(sum(divmod(int(d) * (1 + i % 2), 10)) for i, d in enumerate(reversed(pan))) % 10 == 0


def fleet_card(chance, turn):
    """The parts of a card on track 1: PAN, name, expiry, service code and data, together no longer than the track takes."""
    named = [chr(b) for b in range(32, 96) if chr(b) not in "%^?"]
    pan, name = "".join(chance.choices("0123456789", k=13 + turn % 7)), "".join(chance.choices(named, k=2 + turn % 25))
    expiry, service = chance.choice(["", f"{turn % 100:02}{1 + turn % 12:02}"]), chance.choice(["", f"{turn:03}"])
    room = 76 - len(f"B{pan}^{name}^{expiry or '^'}{service or '^'}")
    return pan, name, expiry, service, "".join(chance.choices(named, k=chance.choice([0, room, chance.randint(0, room)])))


def any_fleet_card(folder):
    """Cards on track 1, with PANs and names of every length, are read either way round, divided, and booked or refused for their check digit or their
    expiry."""
    chance, script, wanted, booked = random.Random(1), [f"site {EVERY}"], ["site 1 records"], 0
    kinds, met = ("days", "no expiry", "expired", "check digits"), set()
    told = lambda text: text.encode().hex().upper() or "-"
    for turn in range(400):
        pan, name, expiry, service, rest = fleet_card(chance, turn)
        text = f"B{pan}^{name}^{expiry or '^'}{service or '^'}{rest}"
        today = day_around(chance, expiry)
        script += [f"layout1 {told(text)}", date(today)]
        wanted += [f"pan {pan} expiry {expiry or '-'} service {service or '-'} name {told(name)} rest {told(rest)}", date(today)]
        for reverse, way in ((False, "forward"), (True, "reversed")):
            bits = stream(f"%{text}?", reverse)
            answer = swiped(booked + 1, expiry, today) if passes(pan) else "refused 4: check digits wrong"
            booked += answer.startswith("booked")
            met |= {kind for kind in kinds if kind in answer}
            script += [f"track1 {bits}", f"swipe1 {bits} 1 0"]
            wanted += [f"read {len(text)} {way} {told(text)}", answer]
    same((lines("\n".join(script) + "\n"), met), (wanted, set(kinds)))


# ---- range tables


def overlapping(chance, number):
    """A table of ranges around a number, a few widths among them, and some with low above high: the low, high and label of each."""
    widths, table = chance.sample([0, 1, 9, 999999, 99999999, 4294967295], 2), []
    for label in chance.sample(range(65536), chance.choice([0, 1, 2, 4, 12])):
        width = chance.choice(widths)
        low = chance.randint(max(0, number - width), min(number, 4294967295 - width))
        table.append(chance.choice([(low, low + width, label)] * 9 + [(4294967295, number, label)]))
    return table


def in_bytes(table):
    return "".join(struct.pack("<IIHBBI", *record, 13, 19, 0).hex().upper() for record in table) or "-"


def narrowest(table, number):
    """The numbers of the records that fit, by high less low, of equals the earlier first."""
    return sorted((k for k, (low, high, _) in enumerate(table) if low <= number <= high), key=lambda k: table[k][1] - table[k][0])


def any_tables(folder):
    """Ranges that overlap, in both tables: the narrowest of the site's that fits is found, else of the acquirer's, of equals the earlier,
    and swipes of both tracks book its label."""
    chance, session, number, serial, none = random.Random(4), Session(), int(CARD[:8]), 0, 0
    swipes = f"swipe {TRACK2} 1 0", f"swipe1 {TRACK1} 1 0"
    same(session.ask(DATE), DATE)
    for turn in range(400):
        tables = {"site": overlapping(chance, number), "acquirer": overlapping(chance, number)}
        for name, table in tables.items():
            same(session.ask(f"{name} {in_bytes(table)}"), f"{name} {len(table)} records")
        found = [(name, k) for name, table in tables.items() for k in narrowest(table, number)]
        if not found:
            none += 1
            same([session.ask(line) for line in (f"range {CARD}", *swipes)], ["refused 15: no range fits"] * 3, f"answers by {tables}")
            continue
        name, k = found[0]
        same(session.ask(f"range {CARD}"), f"{name} {k} {in_bytes(tables[name][k : k + 1])}", f"the record of {tables}")
        for line in swipes:
            serial += 1
            same(session.ask(line), f"booked {serial} days 30")
            same(session.ask(f"show {serial}").split(" label ")[1], f"{tables[name][k][2]} card 411111******1111", f"the label by {tables}")
    same((session.end(), serial > 0, none > 0), ([], True, True), "what was met")


# ---- the hot list

NOT_A_LIST = "refused 21: hot list not rising or too long, or PAN length or a number wrong"


def hot(length, numbers):
    return " ".join(map(str, ["hot", length, *numbers]))


def hot_list(chance, length):
    """Numbers around that of CARD, or of a PAN like it, which is among them or not: a few, or many next to each other or far apart."""
    centre, around = int((CARD * 2)[:length]), chance.choice([3, 1000, 10**12])
    numbers = {centre + chance.randint(-around, around) for k in range(chance.choice([0, 1, 2, 5, 40, 1000]))}
    return sorted(numbers | {centre} if chance.random() < 0.5 else numbers - {centre})


def spoilt(chance, length, numbers):
    """The line of a list with one thing wrong, and its answer."""
    at, most = chance.randint(0, len(numbers)), 10**length
    return chance.choice([
        (hot(length, numbers + [most]), NOT_A_LIST), (hot(chance.choice([0, 12, 20, 4294967295]), numbers), NOT_A_LIST),
        (hot(length, numbers[:at] + [most - 1] * 2 + numbers[at:]), NOT_A_LIST), (hot(length, [1, *numbers[::-1], 0]), NOT_A_LIST),
        (hot(length, numbers[:at] + ["x"] + numbers[at:]), "not understood: not a number"),
        (hot(length, numbers[:at] + [2**64] + numbers[at:]), "not understood: number too large"),
    ])


def any_hot_list(folder):
    """Lists of every PAN length: a card is listed exactly where it has that length and its number is in the list, swipes of both tracks refuse
    CARD exactly then, and a line that is refused or isn't understood leaves the list that was there."""
    chance, session, serial, met = random.Random(8), Session(), 0, collections.Counter()
    same([session.ask(f"site {EVERY}"), session.ask(DATE)], ["site 1 records", DATE])
    for turn in range(350):
        length = 13 + turn % 7
        numbers = hot_list(chance, length)
        same(session.ask(hot(length, numbers)), f"hot {len(numbers)} numbers")
        line, wanted = spoilt(chance, length, numbers)
        same(session.ask(line), wanted, line)
        near = {n + k for n in numbers[:2] + numbers[-2:] + chance.sample(numbers, min(4, len(numbers))) for k in (-1, 0, 1)} | {0, 18, 10**length - 1}
        for pan in {f"{n:0{size}}" for n in near for size in (length, length + 1) if size < 20} | {CARD, OTHER}:
            listed = len(pan) == length and int(pan) in numbers
            met[f"listed {listed}"] += 1
            same(session.ask(f"listed {pan}"), "yes" if listed else "no", f"listed {pan} after {hot(length, numbers)}")
        blocked = length == len(CARD) and int(CARD) in numbers
        for line in (f"swipe {TRACK2} 1 0", f"swipe1 {TRACK1} 1 0"):
            met[f"blocked {blocked}"] += 1
            serial += not blocked
            same(session.ask(line), "refused 22: card on the hot list" if blocked else f"booked {serial} days 30", f"{line} after {hot(length, numbers)}")
        same(session.ask("tell").split()[:3], ["held", str(serial), str(serial)], "what is held")
    same((session.end(), sorted(met)), ([], ["blocked False", "blocked True", "listed False", "listed True"]), "what was met")


def full_hot_list(folder):
    """8,192 numbers are taken, and the first, the last and one between are found. 8,193 are refused, however long, and so are as many as a line
    holds; then the old list stands. A line longer than that is passed over."""
    top, found = 10**19 - 1, ["hot 8192 numbers", "yes", "yes", "yes", "no"]
    full = range(top - 8191, top + 1)
    ask = "".join(f"listed {n}\n" for n in (full[0], full[4711], full[-1], full[0] - 1))
    same(lines(hot(19, full) + "\n" + ask), found)
    for line, wanted in (
        (hot(19, range(full[0] - 1, top + 1)), NOT_A_LIST), (hot(19, range(2**64 - 8193, 2**64)), NOT_A_LIST), (hot(19, range(30000)), NOT_A_LIST),
        ("hot 13" + " 1" * 89997, NOT_A_LIST), ("hot 13" + " 1" * 89998, "not understood: line too long"),
        (hot(19, [*range(2**64 - 8193, 2**64), 2**64]), "not understood: number too large"), (hot(19, [*range(30000), "x"]), "not understood: not a number"),
    ):
        same(lines(hot(19, full) + "\n" + line + "\n" + ask), found[:1] + [wanted] + found[1:], f"a line of {len(line)} bytes, {line[:30]} ..")


def many_hot_lists(folder):
    """40 full lists, some 6 megabytes, are taken within a minute: a line is walked once, and not once for each of its numbers."""
    began = time.monotonic()
    same(lines((hot(19, range(10**19 - 8192, 10**19)) + "\n") * 40), ["hot 8192 numbers"] * 40)
    same(time.monotonic() - began < 60, True, "within a minute")


def hot_list_in_file(folder):
    """A list in a file, one number a line in any order, with zeros in front or without, some of them twice, is given as the manual says."""
    numbers, path = random.Random(8).sample(range(10**16), 8192), folder / "list"
    path.write_text("".join(f"{n:016}\n" if n % 2 else f"{n}\n" for n in numbers + numbers[:100]))
    line = subprocess.run(["sh", "-c", 'echo hot 16 $(sort -nu "$0")', path], stdout=subprocess.PIPE, check=True).stdout.decode()
    same(lines(line + "".join(f"listed {n:016}\n" for n in numbers)), ["hot 8192 numbers"] + ["yes"] * 8192)


def hot_list_in_memory(folder):
    """The hot list stands beside any journal, one that is only read too, is gone at the end, and a card that it blocks changes no file."""
    path = journal_at(folder / "journal", 4)
    same(lines(f"site {EVERY}\n{DATE}\nswipe {TRACK2} 250 0\n", path)[2:], ["booked 1 days 30"])
    data, blocked = path.read_bytes(), "refused 22: card on the hot list"
    for words in ((path,), ("--read-only", path)):
        same(lines(f"hot 16 {CARD}\nlisted {CARD}\n", *words), ["hot 1 numbers", "yes"])
        same(lines(f"listed {CARD}\n", *words), ["no"], "the next run")
    same(lines(f"site {EVERY}\n{DATE}\nhot 16 {CARD}\nswipe {TRACK2} 1 0\nswipe1 {TRACK1} 1 0\n", path)[3:], [blocked] * 2)
    same(path.read_bytes(), data, "the file")


# ---- journals


def pasted_back(folder):
    """A dump is taken back line by line, each no longer than a terminal takes, and gives the same journal."""
    script = f"slots {SLOTS}\n" + "".join(f"book {CARD if s % 3 else OTHER} {s % 9} {s} {s * 7919}\n" for s in range(1, 3000)) + "release 700\n"
    dump = run(script + "dump\n").decode().splitlines()
    dump = dump[len(dump) - 1 - dump[::-1].index(f"slots {SLOTS}") :]
    same(len(dump), SLOTS + 1, "how many lines")
    same(max(map(len, dump)) < 255, True, "a terminal takes each line")
    ask = "held\ntell\nsurvey\ndump\n"
    same(run("\n".join(dump) + "\n" + ask).decode().splitlines()[SLOTS + 1 :], run(script + ask).decode().splitlines()[3001:])


def decoded(folder):
    """`show`, `held` and `tell` tell what the bytes say."""
    found = lines(f"slots 3\nbook {CARD} 65535 4294967295 4294967295\nbook {OTHER} 8 100 5\nshow 1\nheld\ntell\n")[3:]
    numbers = "serial 1 clock 4294967295 amount 4294967295 label 65535 card 411111******1111"
    same(found[0], f"record 01000000FFFFFFFFFFFFFFFFFFFF100134313131313131313131000000000000 {numbers}")
    same(found[1:3], ["1 4294967295 411111******1111 clock 4294967295 label 65535", "2 100 378282*****0005 clock 5 label 8"])
    same(found[3:], ["done 2", "held 2 4294967395 oldest 1 newest 2 left 1"])


def wrong_lengths(folder):
    """A journal of a wrong length is refused with its length."""
    for n, said in ((0, "0"), (1, "1"), (31, "31"), (100, "100"), (65537, "over 65536")):
        wanted = f"refused 16: journal not well formed ({said} bytes; a journal has 32 to 65536, a multiple of 32)"
        word = "00" * n or "-"
        same(lines(f"journal {word}\nsurvey\ndump\n"), [wanted] * 3, f"{n} bytes")


# ---- box and host

# no held records, made of one: released, cut, too long, of serial 0, of amount 0, of a PAN of 12 digits, with a digit and a zero that are none
DAMAGED = [
    lambda r: r[:15] + b"\2" + r[16:], lambda r: r[:31], lambda r: r + b"\0", lambda r: bytes(4) + r[4:], lambda r: r[:8] + bytes(4) + r[12:],
    lambda r: r[:14] + bytes([12]) + r[15:], lambda r: r[:20] + b":" + r[21:], lambda r: r[:29] + b"\1" + r[30:],
]


class Course:
    """A box and the host on one run of the program, asked event by event, and what each must answer. Kept are the amounts of all payments
    booked, how many are released, the last serial the host has taken, and every record and every answer that was ever sent."""

    def __init__(self, seed, slots):
        self.chance, self.slots, self.session = random.Random(seed), slots, Session()
        self.amounts, self.released, self.taken, self.records, self.answers = [], 0, 0, [], []
        # how often each kind of event was met, and the sum of what the releases answered
        self.met, self.sum = collections.Counter(), 0
        self.ask(f"slots {slots}", f"slots {slots}")

    def ask(self, line, wanted):
        same(self.session.ask(line), wanted, f"{line} after {sum(self.met.values())} events")

    def book(self):
        amount, clock = self.chance.choice([1, 250, 4294967295]), self.chance.choice([0, 1700000000, 4294967295])
        fits = len(self.amounts) < self.released + self.slots
        self.met["booked" if fits else "full"] += 1
        self.amounts += [amount] if fits else []
        self.ask(f"book {CARD} 7 {amount} {clock}", f"booked {len(self.amounts)}" if fits else "refused 18: journal full")

    def send(self):
        self.send_record(self.chance.randint(0, len(self.amounts) + 1))

    def send_record(self, serial):
        held = self.released < serial <= len(self.amounts)
        self.met["sent" if held else "not held"] += 1
        answer = self.session.ask(f"show {serial}")
        if held:
            self.records.append((serial, answer.split()[1]))
        else:
            same(answer, "refused 20: serial not there", f"show {serial}")

    def arrive(self):
        if self.records:
            self.arrive_record(*self.chance.choice(self.records))

    def arrive_record(self, serial, record):
        wanted = serial == self.taken + 1
        self.met["taken" if wanted else "old" if serial <= self.taken else "gap"] += 1
        self.taken += wanted
        self.ask(f"take {record}", f"taken {self.taken} total {sum(self.amounts[: self.taken])}")
        self.answers.append(self.taken)

    def damaged(self):
        if self.records:
            self.met["damaged"] += 1
            message = self.chance.choice(DAMAGED)(bytes.fromhex(self.chance.choice(self.records)[1]))
            self.ask(f"take {message.hex()}", "refused 6: layout wrong")

    def answer(self):
        if self.answers:
            self.arrive_answer(self.chance.choice(self.answers))

    def arrive_answer(self, serial):
        free = self.amounts[self.released : serial]
        self.met["answer 0" if serial == 0 else "released" if free else "late answer"] += 1
        self.released, self.sum = max(self.released, serial), self.sum + sum(free)
        self.ask(f"release {serial}", f"released {len(free)} {sum(free)}" if serial else "refused 20: serial not there")

    def settle(self):
        """Every held record arrives in order, then the last answer: nothing is held, and the box has released the host's total."""
        for serial in range(self.released + 1, len(self.amounts) + 1):
            self.send_record(serial)
            self.arrive_record(*self.records[-1])
        self.arrive_answer(self.answers[-1])
        self.ask("tell", f"held 0 0 oldest 0 newest {len(self.amounts)} left {self.slots}")
        self.ask(f"take {self.records[-1][1]}", f"taken {len(self.amounts)} total {self.sum}")
        same(self.session.end(), [])


def any_course(folder):
    """Records and answers between box and host are lost, repeated and late, other messages come in between, and the clock is anything: the
    host's total is the sum of the payments it has taken, each released payment among them, and the last answer settles it."""
    met = collections.Counter()
    for seed, slots in ((1, 1), (2, 3), (3, 8), (4, SLOTS)):
        course = Course(seed, slots)
        events = [course.book, course.send, course.send, course.arrive, course.arrive, course.arrive, course.damaged, course.answer]
        for turn in range(400):
            course.chance.choice(events)()
        course.settle()
        met += course.met
    kinds = ["answer 0", "booked", "damaged", "full", "gap", "late answer", "not held", "old", "released", "sent", "taken"]
    same(sorted(met), kinds, "kinds of events that were met")


def ledger_in_memory(folder):
    """The ledger stands beside any journal, one that is only read too, changes none, and is gone at the end."""
    path = journal_at(folder / "journal", 4)
    same(lines(f"book {CARD} 7 250 0\n", path), ["booked 1"])
    data, record = path.read_bytes(), lines("show 1\n", path)[0].split()[1]
    for words in ((path,), ("--read-only", path)):
        same(lines(f"take {record}\ntake {record}\nledger\n", *words), ["taken 1 total 250"] * 2 + ["ledger 0 0"])
        same(lines(f"take {'02' + record[2:]}\n", *words), ["taken 0 total 0"], "the next run")
    same(path.read_bytes(), data, "the file")


TESTS = [few_writes, each_in_time, full_output, closed_pipe, long_unheard, crlf, groups, every_example, nearest, every_day, every_expiry,
         date_in_memory, date_of_today, any_fleet_card, any_tables, any_hot_list, full_hot_list, many_hot_lists, hot_list_in_file,
         hot_list_in_memory, pasted_back, decoded, wrong_lengths, any_course, ledger_in_memory]
