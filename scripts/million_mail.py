#!/usr/bin/env python3
"""Makes the messages of ./test million, and a list of what each of them is.

    scripts/million_mail.py mbox FIRST COUNT FILE LIST      an mbox of the messages from the first on
    scripts/million_mail.py maildir FIRST COUNT FOLDER LIST a file for each in a folder; prints the day on which they are to be captured

The list gets a line for each message: its number, the SHA-256 and the length of its octets, the day of its capture, and its classes as they
are filed by the rules that scripts/million.bash writes. All of this follows from the number of the message alone.
"""

import datetime
import hashlib
import pathlib
import sys

FIRST_DAY, DAYS = datetime.date(2012, 1, 1), 5290
FILLER = ("x" * 70 + "\n") * 40
WEEKDAYS = ("Mon", "Tue", "Wed", "Thu", "Fri", "Sat", "Sun")
MONTHS = ("Jan", "Feb", "Mar", "Apr", "May", "Jun", "Jul", "Aug", "Sep", "Oct", "Nov", "Dec")


def classes_of(number):
    """The classes of a message: one in fifty has two."""
    if number % 50 == 7:
        return ("finance", "staff")
    kind = number % 20
    return ("finance",) if kind < 4 else ("staff",) if kind < 8 else ("unfiled",)


def subject_of(number):
    """The words by which the rules file a message, and by which a case is found."""
    words = {"finance": "invoice", "staff": "leave", "unfiled": "note"}
    case = " of smith" if number % 97 == 0 else ""
    return " and ".join(words[path] for path in classes_of(number)) + f"{case} {number}"


def day_of(number):
    """The day of a message: any of fourteen years, but no 29 February, whose years are another test."""
    day = FIRST_DAY + datetime.timedelta(number * 7919 % DAYS)
    return day.replace(day=28) if (day.month, day.day) == (2, 29) else day


def text_of(number):
    """The octets of a message, some 2,000 of them."""
    day = day_of(number)
    head = (
        f"Received: from sender.example by archive.example; {day.day} {MONTHS[day.month - 1]} {day.year} 12:00:00 +0000\n"
        f"Message-Id: <{number}@million.example>\nFrom: Sender {number % 1000} <sender{number % 1000}@sender.example>\n"
        f"To: ann@records.example\nSubject: {subject_of(number)}\n\n"
    )
    return (head + FILLER[: 1350 + number * 613 % 850] + f"\n{number}\n").encode()


def noted(number, text, day):
    """The line of a message in the list."""
    return f"{number} {hashlib.sha256(text).hexdigest()} {len(text)} {day} {','.join(classes_of(number))}\n"


def write_mbox(first, count, file, listed):
    """Writes an mbox. Each message has its own day."""
    with open(file, "wb") as mbox:
        for number in range(first, first + count):
            day, text = day_of(number), text_of(number)
            moment = f"{WEEKDAYS[day.weekday()]} {MONTHS[day.month - 1]} {day.day:2} 12:00:00 {day.year}"
            mbox.write(f"From sender{number % 1000}@sender.example {moment}\n".encode() + text + b"\n")
            listed.write(noted(number, text, day))


def write_maildir(first, count, folder, listed):
    """Writes a file for each message. All are captured on one day, that of the first."""
    day = day_of(first)
    for number in range(first, first + count):
        text = text_of(number)
        pathlib.Path(folder, f"b{number:08}").write_bytes(text)
        listed.write(noted(number, text, day))
    print(day)


def main():
    """Does what the command line says."""
    form, first, count, target, listing = sys.argv[1:]
    with open(listing, "a", encoding="ascii") as listed:
        {"mbox": write_mbox, "maildir": write_maildir}[form](int(first), int(count), target, listed)


if __name__ == "__main__":
    main()
