#!/usr/bin/env python3
"""A model of the bench program over stores, independent of its code: reads steps on standard input and
prints what the bench must print. The steps that both benches have are those of bench_model.py; the stores
are written from the rules in docs/STORAGE.md.
"""
import re
import sys

sys.dont_write_bytecode = True

import bench_model
from bench_model import Wrong, to_bytes, to_hex

SLOT = 512
MOST_SLOTS = 64
FEWEST_SLOTS = {"table": 1, "log": 2}
FREE, RECORD, WITHDRAWAL = 0, 1, 2
# The fields of a record: where a slot has the length, if it has one, where it has the field, and the
# smallest and the largest length.
FIELDS = [(2, 16, 1, 128), (3, 144, 1, 64), (4, 208, 0, 64), (5, 272, 0, 64), (None, 336, 32, 32), (None, 368, 32, 32), (None, 400, 32, 32)]

HELP = [
    "blank KIND N       opens a store of N free slots; KIND is table or log",
    "open KIND HEX      opens a store from its image",
    "add PROTECT RP USER NAME DISPLAY CRED X Y",
    "                   adds a record to the store that is open",
    "remove I           takes out the record at place I",
    "list               the records of the store that is open",
    "image              its image",
]


# Stores. A record is credProtect and its seven fields.


class Broken(Exception):
    """A slot that breaks a rule."""


def within_limits(record):
    protect, *fields = record
    return protect in (1, 2, 3) and all(low <= len(field) <= high for field, (_, _, low, high) in zip(fields, FIELDS))


def slot_of_record(record):
    protect, *fields = record
    slot = bytearray(SLOT)
    slot[0:2] = [RECORD, protect]
    for field, (length_at, at, _, _) in zip(fields, FIELDS):
        slot[at : at + len(field)] = field
        if length_at is not None:
            slot[length_at] = len(field)
    return bytes(slot)


def slot_of_withdrawal(place):
    slot = bytearray(SLOT)
    slot[0], slot[6] = WITHDRAWAL, place
    return bytes(slot)


def content(slot):
    """What a slot holds: its mark, and the record or the place."""
    mark = slot[0]
    if mark == FREE and slot == bytes(SLOT):
        return FREE, None
    if mark == RECORD:
        record = [slot[1]]
        for length_at, at, _, high in FIELDS:
            record.append(slot[at : at + (high if length_at is None else slot[length_at])])
        if within_limits(record) and slot == slot_of_record(record):
            return RECORD, record
    if mark == WITHDRAWAL and slot == slot_of_withdrawal(slot[6]):
        return WITHDRAWAL, slot[6]
    raise Broken


class Refused(Exception):
    """Status and place of a refused opening."""


class Store:
    def __init__(self, kind, image):
        count, rest = divmod(len(image), SLOT)
        if rest or not FEWEST_SLOTS[kind] <= count <= MOST_SLOTS:
            raise Refused(0xF2, 0)
        self.kind = kind
        self.slots = [image[SLOT * k : SLOT * (k + 1)] for k in range(count)]
        self.capacity = count if kind == "table" else count - 1
        self.check()

    def check(self):
        """Reads the slots one by one, up to the first that breaks a rule."""
        listed, free_before = 0, False
        for number, slot in enumerate(self.slots):
            try:
                mark, value = content(slot)
                if mark == FREE:
                    free_before = True
                    continue
                if free_before:
                    raise Broken
                if mark == RECORD:
                    if listed == self.capacity:
                        raise Broken
                    listed += 1
                else:
                    if self.kind == "table" or value >= listed:
                        raise Broken
                    listed -= 1
            except Broken:
                raise Refused(0xF3, number)

    def used(self):
        return [content(slot) for slot in self.slots if content(slot)[0] != FREE]

    def records(self):
        listed = []
        for mark, value in self.used():
            if mark == RECORD:
                listed.append(value)
            else:
                del listed[value]
        return listed

    def fill(self, slots):
        """These slots, and free ones after them."""
        self.slots = slots + [bytes(SLOT)] * (len(self.slots) - len(slots))

    def append(self, slot):
        """Writes into the first free slot; where there is none, only the listed records are kept first."""
        kept = self.slots[: len(self.used())]
        if len(kept) == len(self.slots):
            kept = [slot_of_record(record) for record in self.records()]
        self.fill(kept + [slot])

    def add(self, record):
        if len(self.records()) == self.capacity:
            return False
        self.append(slot_of_record(record))
        return True

    def remove(self, place):
        records = self.records()
        if place >= len(records):
            return False
        if self.kind == "log":
            self.append(slot_of_withdrawal(place))
        else:
            del records[place]
            self.fill([slot_of_record(record) for record in records])
        return True


# Text


def to_number(word, name, largest):
    if re.fullmatch(rb"[0-9]+", word):
        digits = word.lstrip(b"0") or b"0"
        if len(digits) <= len(str(largest)) and int(digits) <= largest:
            return int(digits)
    raise Wrong("%s must be a decimal number from 0 to %d" % (name, largest))


def to_kind(word):
    if word not in (b"table", b"log"):
        raise Wrong("KIND must be table or log")
    return word.decode("ascii")


# The store that is open, if there is one.
opened = None


def the_store():
    if opened is None:
        raise Wrong("no store is open")
    return opened


def opening(kind, image):
    global opened
    try:
        opened = Store(kind, image)
    except Refused as refused:
        return ["open: 0x%02x place %d" % refused.args]
    return ["open: 0x00 place 0, %d of %d" % (len(opened.records()), opened.capacity)]


def blank(kind, count):
    kind, count = to_kind(kind), to_number(count, "N", 2**64 - 1)
    # One slot too many is refused like any larger number, and takes no memory.
    return opening(kind, bytes(SLOT * min(count, MOST_SLOTS + 1)))


def open_image(kind, image):
    kind, image = to_kind(kind), to_bytes(image)
    return opening(kind, image)


def add(protect, *fields):
    record = [to_number(protect, "PROTECT", 255)] + [to_bytes(field) for field in fields]
    store = the_store()
    if not within_limits(record):
        return ["add: 0x02"]
    return ["add: " + yes_or_no(store.add(record))]


def remove(place):
    place = to_number(place, "I", 2**64 - 1)
    return ["remove: " + yes_or_no(the_store().remove(place))]


def listing():
    store = the_store()
    records = store.records()
    lines = ["record %d: %d %s" % (place, record[0], " ".join(map(to_hex, record[1:]))) for place, record in enumerate(records)]
    return lines + ["list: %d of %d" % (len(records), store.capacity)]


def image():
    return ["image: " + to_hex(b"".join(the_store().slots))]


def yes_or_no(answer):
    return "yes" if answer else "no"


def help_of_both():
    *others, last = bench_model.HELP
    return [*others, *HELP, last]


bench_model.STEPS.update({
    b"blank": (2, blank),
    b"open": (2, open_image),
    b"add": (8, add),
    b"remove": (1, remove),
    b"list": (0, listing),
    b"image": (0, image),
    b"help": (0, help_of_both),
})


if __name__ == "__main__":
    bench_model.main()
