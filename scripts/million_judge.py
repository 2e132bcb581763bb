#!/usr/bin/env python3
"""Judges an archive of volumes by the list of its messages, and by Python's sqlite3: no program of Mailfile is asked.

    scripts/million_judge.py captured FOLDER LIST TWICE PRINTED KILLS WHERE
        each message of LIST is captured once, in one volume, as the list has it; those in TWICE once more, and no other. What the program
        printed of records is so; at most one message for each kill was not printed. Writes to WHERE which message is in which record
    scripts/million_judge.py held FOLDER WHERE PRINTED KILLS
        the records of the two cases are held, each by one event, and no other; at most one for each kill was not printed
    scripts/million_judge.py destroyed FOLDER LIST WHERE DAY PRINTED KILLS CERTIFICATES
        what is due and on no hold is destroyed, each by one event and with its certificate, and no other
    scripts/million_judge.py copied FOLDER NEW
        both have the same rows, and the files of the copy no Message-Id of a message that was destroyed
    scripts/million_judge.py csv FOLDER [DAY]
        prints what `list --csv` should print, of all or of what is due
    scripts/million_judge.py totals FOLDER DAY
        prints the sums with which `check` should end
    scripts/million_judge.py last FOLDER
        prints the SHA-256 of the message that was captured last, from copies of volumes

What is wrong is printed, and then the status is 1.
"""

import array
import collections
import datetime
import hashlib
import os
import pathlib
import re
import sqlite3
import sys

YEARS = {"finance": 7, "staff": 5, "unfiled": 30}
EPOCH = datetime.date(1970, 1, 1)
LEAST_LOG = 568

Message = collections.namedtuple("Message", "number sum octets day classes")
Record = collections.namedtuple("Record", "number message path day destroyed")


class Faults:
    """What is wrong. Of each kind the first ten are printed."""

    def __init__(self):
        self.counts = collections.Counter()

    def tell(self, kind, what):
        """Notes a fault."""
        self.counts[kind] += 1
        if self.counts[kind] <= 10:
            print(f"{kind}: {what}")

    def compare(self, kind, wanted, found):
        """Notes what two collections do not have in common, each as often as it is there."""
        wanted, found = collections.Counter(wanted), collections.Counter(found)
        for what in (wanted - found).elements():
            self.tell(f"{kind}, missing", what)
        for what in (found - wanted).elements():
            self.tell(f"{kind}, too many", what)

    def end(self):
        """Ends the judgement."""
        for kind, count in self.counts.items():
            print(f"{count} of: {kind}")
        sys.exit(bool(self.counts))


def messages_of(listing):
    """The messages of the list."""
    with open(listing, encoding="ascii") as lines:
        for line in lines:
            number, digest, octets, day, classes = line.split()
            yield Message(int(number), bytes.fromhex(digest), int(octets), sys.intern(day), sys.intern(classes))


def volumes_of(folder):
    """The volumes of an archive, each with its number and a connection that only reads. No log may have anything that the file has not."""
    names = sorted(name for name in os.listdir(folder) if re.fullmatch(r"\d{4}\.db", name))
    others = {name for name in os.listdir(folder) if name not in names and name.removesuffix("-wal") not in names}
    if others != {"volumes", "volumes.lock"} or names != [f"{number:04}.db" for number in range(1, len(names) + 1)]:
        sys.exit(f"{folder} has other files than volumes: {others} {names[-1:]}")
    for number, name in enumerate(names, 1):
        path = os.path.realpath(os.path.join(folder, name))
        if os.path.exists(f"{path}-wal") and os.path.getsize(f"{path}-wal") >= LEAST_LOG:
            sys.exit(f"{path}-wal was not copied into its file")
        with sqlite3.connect(f"file:{path}?immutable=1", uri=True) as volume:
            yield number, volume
        volume.close()


def records_of(volume):
    """The records of a volume."""
    return map(Record._make, volume.execute("SELECT number, message, path, day, destroyed FROM record ORDER BY number"))


def date_of(day):
    """The date of the number of a day."""
    return EPOCH + datetime.timedelta(day)


def due_of(record):
    """The date by which a record is due. No day is a 29 February, so the year is all that changes."""
    day = date_of(record.day)
    return str(day.replace(year=day.year + YEARS[record.path]))


def deeds_of(volume, word):
    """What each line of the history says of such a deed, without its reason."""
    for (line,) in volume.execute("SELECT line FROM event ORDER BY number"):
        parts = line.split(" : ")[0].split(" ", 4)
        if parts[3] == word:
            yield parts[4]


def judge_history(faults, number, volume, before):
    """Reckons the marks of a volume. Its first event names one of the volume before. Returns its marks, by their first 56 digits."""
    mark, marks = "", set()
    for event, line, noted in volume.execute("SELECT number, line, mark FROM event ORDER BY number"):
        mark = hashlib.sha256(f"{mark}\n{line}\n".encode()).hexdigest()
        if mark != noted:
            faults.tell("mark of an event", f"{number}/{event}")
        after = re.search(r" after=([0-9a-f]{56})", line)
        if event == 1 and number > 1 and not (after and after[1] in before):
            faults.tell("volume that does not go on from the one before", number)
        marks.add(mark[:56])
    return marks


def judge_messages(faults, volume_number, volume, known, where):
    """Finds each message of a volume in the list, with its records and its event. Counts it in `known`, and writes its place."""
    records = collections.defaultdict(list)
    for record in records_of(volume):
        records[record.message].append(record)
    events = {}
    for deed in deeds_of(volume, "captured"):
        words = deed.split()
        if int(words[0]) in events:
            faults.tell("message with two events", f"{volume_number}/{words[0]}")
        events[int(words[0])] = (words[2], int(words[4]), words[5], words[words.index("in") + 1])
    for first, body in volume.execute("SELECT number, body FROM message ORDER BY number"):
        message = known.get(hashlib.sha256(body).digest())
        place = f"{volume_number}/{first}"
        if message is None:
            faults.tell("message that nobody has sent", place)
            continue
        filed = records.pop(first, [])
        if [record.path for record in filed] != message.classes.split(",") or any(
            str(date_of(record.day)) != message.day or record.destroyed for record in filed
        ):
            faults.tell("message with other records than it should have", f"{place} {filed}")
        if events.pop(first, None) != (message.day, message.octets, message.sum.hex(), message.classes):
            faults.tell("message with another event than it should have", place)
        where.write(f"{volume_number} {first} {message.number}\n")
        yield message.number
    for first in [*records, *events]:
        faults.tell("record or event without a message", f"{volume_number}/{first}")


def places_of(where):
    """The number of the message that stands at each place: a volume, and the first record of it there."""
    places = collections.defaultdict(dict)
    with open(where, encoding="ascii") as lines:
        for line in lines:
            volume, first, number = map(int, line.split())
            places[volume][first] = number
    return places


PRINTED = re.compile(r"(?:.*/)?([mb])(\d{8})(?:\.mbox:(\d+))?: record (\d+)/(\d+) class (\S+) due (\S+)")


def printed_records(faults, lines):
    """What a capture printed: the number of the message, the volume and the number of its record, the class and the due date."""
    for line in lines:
        found = PRINTED.fullmatch(line.rstrip("\n"))
        if found:
            number = int(found[2]) + (int(found[3]) - 1 if found[1] == "m" else 0)
            yield number, int(found[4]), int(found[5]), found[6], found[7]
        elif not line.startswith("taken "):
            faults.tell("line that tells of no record", line)


def judge_printed(faults, folder, where, printed, kills):
    """Whether what was printed of records is so, each once. At most as many messages as there were kills have a record that was not."""
    with open(printed, encoding="utf-8") as lines:
        told = collections.Counter(printed_records(faults, lines))
    places, silent = places_of(where), set()
    for number, volume in volumes_of(folder):
        for record in records_of(volume):
            row = (places[number].get(record.message), number, record.number, record.path, due_of(record))
            times = told.pop(row, 0)
            if times == 0:
                silent.add((number, record.message))
            elif times > 1:
                faults.tell("record that was printed twice", row)
    for row in told:
        faults.tell("record that was printed and is not there", row)
    if len(silent) > kills:
        faults.tell("messages that were not printed", f"{len(silent)} after {kills} kills")
    print(f"messages of which no line was printed: {len(silent)}, after {kills} kills")


def captured(folder, listing, twice, printed, kills, where):
    """Judges what was captured."""
    faults, known, history = Faults(), {message.sum: message for message in messages_of(listing)}, set()
    size = len(known)
    found = array.array("B", bytes(size + 1))
    with open(where, "w", encoding="ascii") as places:
        for number, volume in volumes_of(folder):
            history = judge_history(faults, number, volume, history)
            for message in judge_messages(faults, number, volume, known, places):
                found[message] += 1
    del known
    for line in pathlib.Path(twice).read_text(encoding="ascii").split():
        found[int(line)] -= 1
    for message in range(1, size + 1):
        if found[message] != 1:
            faults.tell("message that is there another number of times than once", f"{message}: {found[message]}")
    judge_printed(faults, folder, where, printed, int(kills))
    print(f"messages {size}, volumes {number}")
    faults.end()


def is_of_case(name, record, message):
    """Whether a record is of a case, by the conditions under which scripts/million.bash places its hold."""
    if name == "smith-2026":
        return message % 97 == 0
    return record.path == "finance" and "2013-01-01" <= str(date_of(record.day)) <= "2013-06-30"


CASES = ("audit", "smith-2026")


def judge_printed_holds(faults, printed, wanted, kills):
    """Whether what was printed of holds is so, each once. For each kill at most one was not printed."""
    told = collections.Counter(re.findall(r"^record (\d+/\d+) hold (\S+)$", pathlib.Path(printed).read_text(encoding="ascii"), re.M))
    for row in (told - wanted).elements():
        faults.tell("hold that was printed and is not there, or was printed twice", row)
    silent = (wanted - told).total()
    if silent > kills:
        faults.tell("holds that were not printed", f"{silent} after {kills} kills")
    print(f"holds {wanted.total()}, of which no line was printed: {silent}, after {kills} kills")


def held(folder, where, printed, kills):
    """Judges what is held."""
    faults, places, rows = Faults(), places_of(where), collections.Counter()
    for number, volume in volumes_of(folder):
        wanted = [
            f"{name} {record.number}"
            for record in records_of(volume)
            for name in CASES
            if is_of_case(name, record, places[number][record.message])
        ]
        holds = [f"{name} {record}" for name, record in volume.execute("SELECT name, record FROM hold")]
        faults.compare(f"hold in volume {number}", wanted, holds)
        faults.compare(f"event of a hold in volume {number}", wanted, deeds_of(volume, "held"))
        rows.update((f"{number}/{hold.split()[1]}", hold.split()[0]) for hold in wanted)
    judge_printed_holds(faults, printed, rows, int(kills))
    faults.end()


CERTIFICATE = re.compile(
    r"destroyed record (\d+)/(\d+) class (\S+)( as due by \S+ \(7 years destroy\)| due \S+) octets (\d+) sha256 (\S+) at \S+(.*)"
)


def certified(faults, file):
    """What certificates tell: volume and record, class, octets and sum, and the record that keeps the message. Each record is told once."""
    told = {}
    with open(file, encoding="utf-8") as lines:
        for line in lines:
            found = CERTIFICATE.fullmatch(line.rstrip("\n"))
            place = found and (int(found[1]), int(found[2]))
            if not found or place in told:
                faults.tell("certificate that is none, or comes twice", line)
                continue
            told[place] = (found[3], int(found[5]), found[6], "".join(re.findall("message kept by record (.*)", found[7])))
    return told


def judge_destroyed(faults, number, volume, places, day):
    """Which records of a volume are destroyed, as they should be, with the number of the message and who keeps it."""
    records, holds = list(records_of(volume)), {record for (record,) in volume.execute("SELECT record FROM hold")}
    wanted = [record for record in records if record.path == "finance" and due_of(record) <= day and record.number not in holds]
    gone = [record.number for record in records if record.destroyed]
    faults.compare(f"destroyed in volume {number}", [record.number for record in wanted], gone)
    deeds = [f"{record.number} as due by {day} (7 years destroy)" for record in wanted]
    faults.compare(f"event of a destruction in volume {number}", deeds, deeds_of(volume, "destroyed"))
    keepers = {record.message: f"{number}/{record.number}" for record in records if not record.destroyed}
    there = [message for (message,) in volume.execute("SELECT number FROM message")]
    faults.compare(f"message in volume {number}", list(keepers), there)
    days = [(record.number, (datetime.date.fromisoformat(due_of(record)) - EPOCH).days) for record in records if not record.destroyed]
    faults.compare(f"due day in volume {number}", days, volume.execute("SELECT record, day FROM due_day"))
    for name, record in volume.execute("SELECT name, record FROM hold"):
        if not is_of_case(name, records[record - 1], places[records[record - 1].message]):
            faults.tell("hold that should not be", f"{name} {number}/{record}")
    for record in wanted:
        yield (number, record.number), places[record.message], keepers.get(record.message, "")


def destroyed(folder, listing, where, day, printed, kills, certificates):
    """Judges what was destroyed."""
    faults, places, gone, history = Faults(), places_of(where), {}, set()
    for number, volume in volumes_of(folder):
        history = judge_history(faults, number, volume, history)
        for place, message, keeper in judge_destroyed(faults, number, volume, places[number], day):
            gone[place] = (message, keeper)
    asked = {message for message, _ in gone.values()}
    listed = {message.number: message for message in messages_of(listing) if message.number in asked}
    wanted = {
        place: ("finance", listed[message].octets, listed[message].sum.hex(), keeper) for place, (message, keeper) in gone.items()
    }
    told, told_then = certified(faults, certificates), certified(faults, printed)
    faults.compare("certificate", wanted.items(), told.items())
    faults.compare("certificate that was printed", {place: wanted.get(place) for place in told_then}.items(), told_then.items())
    if len(wanted) - len(told_then) > int(kills):
        faults.tell("certificates that were not printed", f"{len(wanted) - len(told_then)} after {kills} kills")
    print(f"destroyed {len(wanted)}, certificates that were not printed {len(wanted) - len(told_then)}, after {kills} kills")
    faults.end()


TABLES = ("message", "record", "hold", "meta", "class", "schedule", "due_day", "event")


def sums_of(volume):
    """A sum of the rows of each table of a volume."""
    sums = {}
    for table in TABLES:
        digest = hashlib.sha256()
        for row in volume.execute(f"SELECT * FROM {table} ORDER BY 1, 2"):
            digest.update(repr(row).encode())
        sums[table] = digest.hexdigest()
    return sums


def identities_in(octets):
    """The numbers of the messages whose Message-Id is in some octets."""
    return {int(number) for number in re.findall(rb"Message-Id: <(\d+)@million\.example>", octets)}


def copied(folder, new):
    """Judges a copy. A message that is in the file of a volume, but in no row of it, was destroyed."""
    faults, volumes, traces = Faults(), 0, 0
    for (number, volume), (other_number, other) in zip(volumes_of(folder), volumes_of(new), strict=True):
        if number != other_number or sums_of(volume) != sums_of(other):
            faults.tell("volume that is another in the copy", number)
        kept = set()
        for (body,) in other.execute("SELECT body FROM message"):
            kept |= identities_in(body)
        path = f"{number:04}.db"
        for message in identities_in(pathlib.Path(new, path).read_bytes()) - kept:
            faults.tell("message that was destroyed and is in the copy", f"{number}: {message}")
        traces += len(identities_in(pathlib.Path(folder, path).read_bytes()) - kept)
        volumes = number
    print(f"volumes {volumes}; of {traces} destroyed messages the old files still have the Message-Id, the copy of none")
    faults.end()


def csv(folder, day=None):
    """Prints what a list should print."""
    print("number,class,day,due,holds,destroyed")
    for number, volume in volumes_of(folder):
        holds = collections.defaultdict(list)
        for name, record in volume.execute("SELECT name, record FROM hold ORDER BY name"):
            holds[record].append(name)
        for record in records_of(volume):
            due = "" if record.destroyed else due_of(record)
            if day is None or (due and due <= day):
                names = " ".join(holds[record.number])
                print(f"{number}/{record.number},{record.path},{date_of(record.day)},{due},{names},{'yes' if record.destroyed else 'no'}")


def totals(folder, day):
    """Prints the sums with which a check should end."""
    sums = collections.Counter()
    for number, volume in volumes_of(folder):
        records = list(records_of(volume))
        live = [record for record in records if not record.destroyed]
        (held_records,), (messages, octets) = (
            volume.execute(text).fetchone()
            for text in ("SELECT count(DISTINCT record) FROM hold", "SELECT count(*), ifnull(sum(length(body)), 0) FROM message")
        )
        due = sum(due_of(record) <= day for record in live)
        sums.update({"volumes": 1, "records": len(records), "live": len(live), "held": held_records})
        sums.update({"due today": due, "messages": messages, "octets": octets})
    for name in ("volumes", "records", "live", "held", "due today", "messages", "octets"):
        print(f"{name} {sums[name]}")


def last(folder):
    """Prints the SHA-256 of the message that was captured last in a folder of copies of volumes, with their logs."""
    for name in sorted((name for name in os.listdir(folder) if name.endswith(".db")), reverse=True):
        with sqlite3.connect(os.path.join(folder, name)) as volume:
            row = volume.execute("SELECT body FROM message ORDER BY number DESC LIMIT 1").fetchone()
        volume.close()
        if row:
            print(hashlib.sha256(row[0]).hexdigest())
            return


if __name__ == "__main__":
    JUDGEMENTS = {"captured": captured, "held": held, "destroyed": destroyed, "copied": copied, "csv": csv, "totals": totals, "last": last}
    JUDGEMENTS[sys.argv[1]](*sys.argv[2:])
