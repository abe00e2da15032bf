"""Reads a frame, lists a record and makes one from Python, by ctypes and the standard library alone; frames named behind them are taken as a run.

    gcc -shared -o libplane_record.so -Wl,--whole-archive target/staticlib/libexports.a -Wl,--no-whole-archive
    python3 examples/python/plane_record.py ./libplane_record.so samples/data.frame samples/plane-14.record samples/run-*.frame

The structs are those of include/plane_record.h, field by field; a further call is declared as the ones below are. Bytes that are only read are lent
as they are; for a call that writes, lend ctypes.create_string_buffer(n), as `open` and `edit` do.
"""
import ctypes
import os
import sys
from ctypes import c_char_p, c_size_t, c_uint8, c_uint16, c_uint32, c_uint64

KINDS = ["?", "data", "monitor", "command"]
CLASSES = ["?", "channel", "histogram", "hit count", "sample", "bin", "last cell", "time bin", "?", "?", "?", "text", "start event", "end event"]
CLASSES += ["?", "continue event"]


class Frame(ctypes.Structure):
    _fields_ = [("refused", c_uint32), ("place", c_size_t), ("kind", c_uint16), ("card", c_uint16), ("sequence", c_uint16), ("items", c_size_t)]


class Item(ctypes.Structure):
    _fields_ = (
        [("item_class", c_uint32)]
        + [(name, c_uint16) for name in "card chip channel hits value bin cell time length kind".split()]
        + [("count", c_uint32), ("number", c_uint32), ("size", c_uint32), ("timestamp", c_uint64)]
    )


class Found(ctypes.Structure):
    _fields_ = [("refused", c_uint32), ("place", c_size_t), ("index", c_size_t), ("next", c_size_t), ("item", Item)]


class Event(ctypes.Structure):
    _fields_ = (
        [("refused", c_uint32), ("place", c_size_t), ("began", c_uint8), ("ended", c_uint8), ("kind", c_uint16), ("number", c_uint32)]
        + [("timestamp", c_uint64), ("size", c_uint32), ("index", c_size_t)]
    )


class Word(ctypes.Structure):
    _fields_ = [("refused", c_uint32), ("place", c_size_t), ("word", c_size_t)]


class Record(ctypes.Structure):
    _fields_ = [("refused", c_uint32), ("place", c_size_t), ("length", c_size_t), ("count", c_size_t), ("total", c_size_t)]


class Entry(ctypes.Structure):
    _fields_ = (
        [("refused", c_uint32), ("place", c_size_t), ("word", c_uint16), ("kind", c_uint16)]
        + [("old_value", c_uint32), ("new_value", c_uint32), ("operator_id", c_uint16), ("reason", c_uint16), ("timed", c_uint8), ("time", c_uint64)]
    )


class Correction(ctypes.Structure):
    _fields_ = [("word", c_size_t), ("value", c_uint32), ("operator_id", c_uint32), ("reason", c_uint32), ("time", c_uint64)]


class Done(ctypes.Structure):
    _fields_ = [("refused", c_uint32), ("place", c_size_t)]


class Follower(ctypes.Structure):
    _fields_ = [("expecting", c_uint8), ("number", c_uint8)]


class Assembler(ctypes.Structure):
    _fields_ = (
        [("card", c_uint16), ("open", c_uint8), ("follower", Follower)]
        + [("number", c_uint32), ("size", c_uint32), ("key", c_uint32)]
    )


class Taken(ctypes.Structure):
    _fields_ = [("refused", c_uint32), ("place", c_size_t), ("lost", c_uint8), ("next", Assembler)]


class Refused(Exception):
    """A refusal's number, and its place."""


class Library:
    def __init__(self, path):
        self.shared = ctypes.CDLL(path)

    def call(self, name, answer, data, *more, state=()):
        """Calls a function on `data`, behind a state if it takes one, with numbers, bytes or structs behind it; its answer, or Refused."""
        function = self.shared[name]
        function.restype = answer
        function.argtypes = [type(x) for x in state] + [c_char_p, c_size_t] + [{int: c_size_t, bytes: c_char_p}.get(type(x), type(x)) for x in more]
        got = function(*state, data, len(data), *more)
        if got.refused:
            raise Refused("refused %d at %d" % (got.refused, got.place))
        return got

    def read(self, frame):
        return self.call("plane_read", Frame, frame)

    def item(self, frame, ordinal):
        return self.call("plane_item", Found, frame, ordinal)

    def event(self, frame, ordinal):
        return self.call("plane_event", Event, frame, ordinal)

    def sample_word(self, frame, ordinal, chip, channel, time):
        return self.call("plane_sample_word", Word, frame, ordinal, chip, channel, time).word

    def bin_word(self, frame, chip, channel, number):
        return self.call("plane_bin_word", Word, frame, chip, channel, number).word

    def take(self, assembler, frame):
        """Takes the next frame of a run: how many were lost before it, and the assembler from here on. Assembler(card=5) has seen nothing."""
        taken = self.call("plane_take", Taken, frame, state=[assembler])
        return taken.lost, taken.next

    def record(self, data):
        return self.call("plane_record", Record, data)

    def entry(self, data, number):
        return self.call("plane_entry", Entry, data, number)

    def open(self, frame, entries):
        """A buffer with a record of the frame, and room for so many corrections of 24 bytes."""
        buffer = ctypes.create_string_buffer(16 + len(frame) + 24 * entries)
        self.call("plane_open", Done, buffer, frame, len(frame))
        return buffer

    def edit(self, buffer, correction):
        self.call("plane_edit", Done, buffer, correction)


def shown(item):
    """The class of an item, and its fields that are not 0."""
    values = ["%s %d" % (name, getattr(item, name)) for name, _ in Item._fields_[1:] if getattr(item, name)]
    return " ".join([CLASSES[item.item_class]] + values)


def told(event):
    """An event, or the part of one that stands in a frame."""
    began = "type %d, timestamp %d" % (event.kind, event.timestamp) if event.began else "began in another frame"
    ended = "%d bytes" % event.size if event.ended else "does not end in this frame"
    return "event %d at word %d: %s; %s" % (event.number, event.index, began, ended)


def events(plane, frame):
    """The events of a frame that was accepted."""
    for n in range(plane.read(frame).items):
        try:
            yield plane.event(frame, n)
        except Refused:
            return


def take_all(plane, names):
    """Takes files as the frames of one card, in their order."""
    frames = [open(name, "rb").read() for name in names]
    assembler = Assembler(card=plane.read(frames[0]).card)
    for name, frame in zip(names, frames):
        lost, assembler = plane.take(assembler, frame)
        print("%s: lost %d" % (os.path.basename(name), lost))
        for n in range(plane.read(frame).items)[:1]:
            print("item 0: %s" % shown(plane.item(frame, n).item))
        for event in events(plane, frame):
            print(told(event))
    print("event %d is open" % assembler.number if assembler.open else "no event is open")


def list_entries(plane, record):
    """The corrections of a record; those of version 1 have no time."""
    for n in range(1, plane.record(record).count + 1):
        e = plane.entry(record, n)
        at = ", at %d" % e.time if e.timed else ""
        print("entry %d: word %d, %d -> %d, by %d, reason %d%s" % (n, e.word, e.old_value, e.new_value, e.operator_id, e.reason, at))


def correct(plane, frame, record):
    """Corrects one sample in a record of the frame, which is of version 2; the same of a record of version 1 is refused."""
    correction = Correction(word=plane.sample_word(frame, 1, 0, 78, 502), value=4000, operator_id=9, reason=2, time=1794832496000)
    try:
        plane.edit(ctypes.create_string_buffer(record, len(record)), correction)
    except Refused as refused:
        print("an edit of it: %s" % refused)
    buffer = plane.open(frame, 1)
    plane.edit(buffer, correction)
    print("a record of the frame, edited: %d bytes" % plane.record(buffer).total)
    list_entries(plane, buffer)


def main(library, frame_file, record_file, *run_files):
    plane = Library(library)
    frame = open(frame_file, "rb").read()
    f = plane.read(frame)
    print("%s frame of card %d, sequence word %04X, %d items" % (KINDS[f.kind], f.card, f.sequence, f.items))
    for n in range(f.items):
        print("item %d: %s" % (n, shown(plane.item(frame, n).item)))
    for event in events(plane, frame):
        print(told(event))
    print("the sample at time 502 of event 1, chip 0, channel 78: word %d" % plane.sample_word(frame, 1, 0, 78, 502))
    record = open(record_file, "rb").read()
    r = plane.record(record)
    print("bin 248 of chip 0, channel 17: word %d" % plane.bin_word(record[16 : 16 + r.length], 0, 17, 248))
    list_entries(plane, record)
    try:
        plane.record(record[:15])
    except Refused as refused:
        print("its first 15 bytes: %s" % refused)
    correct(plane, frame, record)
    if run_files:
        take_all(plane, run_files)


if __name__ == "__main__":
    main(*sys.argv[1:])
