#!/usr/bin/env python3
"""Hold the library against python-stdnum (Debian's python3-stdnum).

usage: stdnum_peer.py REGISTRY COMMAND...

COMMAND is the program of tests/ask.c. Compared are Luhn, creditor references
(ISO 11649) and IBANs (ISO 13616), texts tested and check digits made. Where the
two differ, a sentence of document 01 must decide; the sentences are listed, with
how often each decided.
"""

import random
import string
import subprocess
import sys

from stdnum import iban, iso11649, luhn

CAPITALS = string.ascii_uppercase
SEED = 2026
ROUNDS = 4000

PAIRS = "00, 01 and 99 are always refused, even where they leave 1"
LUHN_LENGTH = "Test: 2 to 40 digits"
CREDITOR_BYTES = "`RF`, two check digits, 1 to 21 digits or capitals"
CREDITOR_PLACES = "`RF` and digits at 3 and 4 (6)"
IBAN_BYTES = "IBAN, no spaces: each byte a digit or capital (3)"
IBAN_COUNTRY = "country listed (5)"
IBAN_PLACES = "whole length, places 3 and 4 digits, body kinds (6)"


def is_plain(text):
    return all(c in string.digits + CAPITALS for c in text)


def decided_pair(text, bytes_sentence, places_sentence):
    """The sentence that decides against a text which stdnum takes."""
    if not is_plain(text):
        return bytes_sentence
    if not text[2:4].isdigit():
        return places_sentence
    return PAIRS if text[2:4] in ("00", "01", "99") else None


def decided_luhn(text, _listed):
    return None if 2 <= len(text) <= 40 else LUHN_LENGTH


def decided_creditor(text, _listed):
    return decided_pair(text, CREDITOR_BYTES, CREDITOR_PLACES)


def decided_iban(text, listed):
    if is_plain(text) and text[:2] not in listed:
        return IBAN_COUNTRY
    return decided_pair(text, IBAN_BYTES, IBAN_PLACES)


TESTS = {
    "luhn_test": (luhn.is_valid, decided_luhn),
    "creditor_test": (iso11649.is_valid, decided_creditor),
    "iban_test": (lambda text: iban.is_valid(text, check_country=False), decided_iban),
}

MAKES = {
    "luhn_make": luhn.calc_check_digit,
    "creditor_make": lambda body: iban.calc_check_digits("RF00" + body),
    "iban_make": lambda both: iban.calc_check_digits(both[:2] + "00" + both[3:]),
}

SENTENCES = [
    LUHN_LENGTH, CREDITOR_BYTES, CREDITOR_PLACES, IBAN_BYTES, IBAN_COUNTRY, IBAN_PLACES, PAIRS,
]


def spoiled(text):
    """One character changed, exchanged with another, taken out or put in."""
    at = random.randrange(len(text))
    other = random.randrange(len(text))
    way = random.randrange(5)
    if way == 0:
        low, high = min(at, other), max(at, other)
        if low == high:
            return text
        return text[:low] + text[high] + text[low + 1:high] + text[low] + text[high + 1:]
    if way == 1:
        return text[:at] + text[at + 1:]
    new = random.choice(string.digits + CAPITALS)
    return text[:at] + new + text[at + (way > 2):]


def digits(count):
    return "".join(random.choices(string.digits, k=count))


def luhn_questions():
    for _ in range(ROUNDS):
        body = digits(random.randint(1, 43))
        passing = body + luhn.calc_check_digit(body)
        yield from (("luhn_test", t) for t in (passing, passing[::-1], digits(len(passing))))
        yield "luhn_test", passing[:-1] + digits(1)
        yield "luhn_make", body[:39]
    yield "luhn_test", "0"


def pairs_of(call, text):
    """Every pair in the check places."""
    for pair in range(100):
        yield call, f"{text[:2]}{pair:02d}{text[4:]}"


def creditor_questions():
    for turn in range(ROUNDS):
        body = "".join(random.choices(string.digits + CAPITALS, k=random.randint(1, 21)))
        passing = "RF" + MAKES["creditor_make"](body) + body
        yield "creditor_make", body
        yield from (("creditor_test", t) for t in (passing, spoiled(passing), passing.lower()))
        yield "creditor_test", "RF" + random.choice(CAPITALS) + digits(1) + body
        if turn % 20 == 0:
            yield from pairs_of("creditor_test", passing)


def other_body(text):
    """The same kinds of characters, now and then the other kind."""
    mixed = random.random() < 0.3
    for c in text:
        digit = c.isdigit() ^ (mixed and random.random() < 0.1)
        yield random.choice(string.digits if digit else CAPITALS)


def unlisted_examples(listed):
    """Texts of countries that stdnum lists and document 01 doesn't."""
    bodies = {"TR": "1!" + digits(22), "SA": digits(20), "IL": digits(19), "EG": digits(25)}
    for country, body in bodies.items():
        if country not in listed:
            yield country + "00" + body.replace("!", "")


def iban_questions(examples, listed):
    shapes = examples + list(unlisted_examples(listed))
    for turn in range(ROUNDS):
        shape = random.choice(shapes)
        country, body = shape[:2], "".join(other_body(shape[4:]))
        passing = country + iban.calc_check_digits(country + "00" + body) + body
        if turn % 4 == 0:
            yield "iban_make", country + " " + body
        yield from (("iban_test", t) for t in (passing, spoiled(passing), passing.lower()))
        yield "iban_test", country + random.choice(CAPITALS) + digits(1) + body
        if turn % 20 == 0:
            yield from pairs_of("iban_test", passing)
    yield from (("iban_test", example) for example in examples)


def asked(command, questions):
    text = "".join(f"{call} {text}\n" for call, text in questions)
    run = subprocess.run(command, input=text, capture_output=True, text=True, check=True)
    answers = [[int(word) for word in line.split()] for line in run.stdout.splitlines()]
    if len(answers) != len(questions):
        sys.exit("not one answer for each question")
    return answers


def judge_test(call, text, answer, listed, decided):
    """None, or what is wrong with the answer."""
    accepts, deciding = TESTS[call]
    if accepts(text) == (answer[0] == 0):
        return None
    sentence = deciding(text, listed) if answer[0] != 0 else None
    if sentence is None:
        return f"{call} {text}: the library answers {answer[0]}, stdnum the contrary"
    decided[sentence] += 1
    return None


def judge_make(call, text, answer, accepted):
    """A make that is refused has a body that stdnum refuses too, whatever the pair."""
    right = int(MAKES[call](text))
    if answer[0] == 0:
        accepted[call] += 1
        return None if answer[1] == right else f"{call} {text}: {answer[1]}, stdnum {right}"
    whole = text[:2] + f"{right:02d}" + text[3:]
    if call == "iban_make" and (answer[0] == 5 or not TESTS["iban_test"][0](whole)):
        return None
    return f"{call} {text}: refused with {answer[0]}"


def main():
    random.seed(SEED)
    with open(sys.argv[1], encoding="ascii") as registry:
        examples = [line.strip() for line in registry if line[0] in CAPITALS]
    listed = {example[:2] for example in examples}
    questions = [*luhn_questions(), *creditor_questions(), *iban_questions(examples, listed)]
    answers = asked(sys.argv[2:], questions)
    decided = dict.fromkeys(SENTENCES, 0)
    accepted = dict.fromkeys([*TESTS, *MAKES], 0)
    wrong = []
    for (call, text), answer in zip(questions, answers):
        if call in TESTS:
            accepted[call] += answer[0] == 0
            wrong.append(judge_test(call, text, answer, listed, decided))
        else:
            wrong.append(judge_make(call, text, answer, accepted))
    wrong = [line for line in wrong if line]
    for line in wrong[:20]:
        print(line)
    print(f"python-stdnum: {len(questions)} questions, seed {SEED}, accepted: {accepted}")
    for sentence, times in decided.items():
        print(f"  differs {times} times, and document 01 decides: {sentence}")
    unused = [sentence for sentence, times in decided.items() if times == 0]
    sys.exit(1 if wrong or unused or 0 in accepted.values() else 0)


main()
