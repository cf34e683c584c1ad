"""Logs for profile with the answers expected, made from its rules before the program stood.

    profile_cases.py FOLDER [--check]         writes FOLDER/NAME/stdin and FOLDER/NAME/stdout for each log
    profile_cases.py FOLDER NAME [--check]    writes FOLDER/stdin and FOLDER/stdout of that log alone
    profile_cases.py --gate [--check]         writes what the gate runs: the log refusals as standard input of profile, and
                                              the others as files that profilecases is given by name

A log has one hour, since a second O line is refused. With --check, profile.py has to give the same answers, and
profile_check.py has to find the last two lines right.

Answers to refused lines are literal text, and so is the whole answer to a small log. In an hour of levels that its
frames determine, the solved levels are those that the frames were made from. Only the last lines that are left come
from profile.py.
"""

import functools
import os
import sys

import fieldtable
import profile
import profile_check

LINE_13 = b"?,refused,line,13,0"
OPEN_13 = b"O,refused,line,13,0"
OPEN_14 = b"O,refused,line,14,0"
OPEN_16 = b"O,refused,block,16,0"
FRAME_13 = b"F,refused,line,13,0"
FRAME_14 = b"F,refused,line,14,0"
FRAME_10 = b"F,refused,frame,10,0"
FRAME_5 = b"F,refused,block,5,0"

# Before an hour is open: a line, its answer and the reason.
CLOSED = [
    (b"F,5,0,1", FRAME_13, "a frame before an hour"),
    (b"F", FRAME_13, "13 before 14: no sum"),
    (b"F,x,0,1", FRAME_13, "13 before 15"),
    (b"F,5", FRAME_13, "13 before 10"),
    (b"F,5,64,1", FRAME_13, "13 before 11"),
    (b"F,5,0,0", FRAME_13, "13 before 12"),
    # 13: the first field is neither O nor F.
    (b"", LINE_13, "empty line"),
    (b",P,60", LINE_13, "empty first field"),
    (b",O,P,60", LINE_13, "O is not first"),
    (b"o,P,60", LINE_13, "lower case"),
    (b"OO,P,60", LINE_13, "two letters"),
    (b"OF,P,60", LINE_13, "two known letters"),
    (b"OP,60", LINE_13, "the comma after O is lost"),
    (b"O;P;60", LINE_13, "semicolons part no fields"),
    (b"0,P,60", LINE_13, "a zero for the letter O"),
    (b"P,60", LINE_13, "the field first"),
    (b"E,5,0,1", LINE_13, "the letter before F"),
    (b"Q,P,60", LINE_13, "a letter after O"),
    (b"N,0,5", LINE_13, "another letter of the receiver: N"),
    (b"S", LINE_13, "another letter of the receiver: S"),
    (b"T", LINE_13, "another letter of the receiver: T"),
    (b"X,0", LINE_13, "another letter of the receiver: X"),
    (b"A", LINE_13, "another letter of the receiver: A"),
    (b"C", LINE_13, "another letter of the receiver: C"),
    (b" O,P,60", LINE_13, "blank before O"),
    (b"O ,P,60", LINE_13, "blank after O"),
    (b"O\r", LINE_13, "carriage return belongs to the first field"),
    (b"O\x00,P,60", LINE_13, "NUL after O"),
    (b"\xcf,P,60", LINE_13, "O with the top bit set"),
    (b"\xef\xbb\xbfO,P,60", LINE_13, "byte order mark before O"),
    (b"ok,60", LINE_13, "the end of an answer"),
    # 14: the fields of an O line.
    (b"O", OPEN_14, "no field, no width"),
    (b"O,", OPEN_14, "an empty field and no width"),
    (b"O,P", OPEN_14, "no width"),
    (b"O,60", OPEN_14, "no field"),
    (b"O,P,60,", OPEN_14, "an empty field too many"),
    (b"O,P,60,1", OPEN_14, "a number too many"),
    (b"O,,,", OPEN_14, "14 before 15: all empty"),
    (b"O,x", OPEN_14, "14 before 15: no such field"),
    (b"O,P,x,y", OPEN_14, "14 before 15: words"),
    (b"O,P,65,1", OPEN_14, "14 before 16"),
    (b"O,P,60\rO,P,60", OPEN_14, "byte 13 ends no line"),
    # 15: the fields of an O line.
    (b"O,,", b"O,refused,line,15,2", "both empty"),
    (b"O,,60", b"O,refused,line,15,2", "empty field"),
    (b"O,p,60", b"O,refused,line,15,2", "lower case"),
    (b"O,b,60", b"O,refused,line,15,2", "lower case"),
    (b"O,PP,60", b"O,refused,line,15,2", "two letters"),
    (b"O,PB,60", b"O,refused,line,15,2", "both letters"),
    (b"O,O,60", b"O,refused,line,15,2", "another letter"),
    (b"O,C,60", b"O,refused,line,15,2", "the letter after B"),
    (b"O,7,60", b"O,refused,line,15,2", "a number"),
    (b"O,65521,60", b"O,refused,line,15,2", "the size of the field"),
    (b"O, P,60", b"O,refused,line,15,2", "blank before the field"),
    (b"O,P ,60", b"O,refused,line,15,2", "blank after the field"),
    (b"O,\xd0,60", b"O,refused,line,15,2", "P with the top bit set"),
    (b"O,60,P", b"O,refused,line,15,2", "exchanged"),
    (b"O,x,y", b"O,refused,line,15,2", "the first of two"),
    (b"O,x,65", b"O,refused,line,15,2", "15 before 16"),
    (b"O,P,", b"O,refused,line,15,4", "empty width"),
    (b"O,B,x", b"O,refused,line,15,4", "a letter as width"),
    (b"O,P,P", b"O,refused,line,15,4", "the field twice"),
    (b"O,P,060", b"O,refused,line,15,4", "leading zero"),
    (b"O,B,00", b"O,refused,line,15,4", "15 before 16: 00"),
    (b"O,P,65536", b"O,refused,line,15,4", "15 before 16: over 65535"),
    (b"O,P,65596", b"O,refused,line,15,4", "65596 is not 60"),
    (b"O,P,+60", b"O,refused,line,15,4", "plus before the width"),
    (b"O,P,-1", b"O,refused,line,15,4", "minus before the width"),
    (b"O,P, 60", b"O,refused,line,15,4", "blank before the width"),
    (b"O,P,60\r", b"O,refused,line,15,4", "carriage return at the end"),
    (b"O,B,6\x00", b"O,refused,line,15,4", "NUL at the end"),
    # 16: the width.
    (b"O,P,0", OPEN_16, "no minute"),
    (b"O,B,0", OPEN_16, "no minute, octets"),
    (b"O,P,65", OPEN_16, "65 minutes"),
    (b"O,B,65", OPEN_16, "65 minutes, octets"),
    (b"O,P,256", OPEN_16, "256 is not 0"),
    (b"O,P,316", OPEN_16, "316 is not 60"),
    (b"O,P,65535", OPEN_16, "the largest number"),
    (b"O,B,65522", OPEN_16, "65522 is not 1"),
    # Length of the line: 256 bytes are read, 257 are not.
    (b"O,P," + b"6" * 252, b"O,refused,line,15,4", "256 bytes, one long row of digits"),
    (b"O,P," + b"6" * 253, LINE_13, "257 bytes, one long row of digits"),
    (b"O,P,60" + b"," * 250, OPEN_14, "256 bytes, commas"),
    (b"O,P,60" + b"," * 251, LINE_13, "257 bytes, commas"),
    (b"O," + b"P" * 251 + b",60", b"O,refused,line,15,2", "256 bytes, a long field"),
    (b"O," + b"P" * 254, OPEN_14, "256 bytes, no width"),
    (b"F" * 257, LINE_13, "257 bytes, no letter"),
    (b"O,P,60" + b"\r" * 3000, LINE_13, "3006 bytes"),
]

# In an hour of 60 minutes, with rows still free.
OPEN = [
    (b"O,P,60", OPEN_13, "the same hour again"),
    (b"O,B,8", OPEN_13, "another hour"),
    (b"O", OPEN_13, "13 before 14"),
    (b"O,P,60,1", OPEN_13, "13 before 14: a number too many"),
    (b"O,x,60", OPEN_13, "13 before 15"),
    (b"O,P,0", OPEN_13, "13 before 16"),
    (b"O,P," + b"6" * 253, LINE_13, "too long and a second hour"),
    (b"", LINE_13, "empty line"),
    (b",", LINE_13, "two empty fields"),
    (b"f,5,0,1", LINE_13, "lower case"),
    (b"FF,5,0,1", LINE_13, "two letters"),
    (b"S", LINE_13, "a letter that other programs know"),
    (b"\x00F,5,0,1", LINE_13, "NUL before F"),
    (b"?,refused,line,13,0", LINE_13, "an answer read as a line"),
    (b"O,ok,60", OPEN_13, "an answer read as a line"),
    (b"\xff\xfe", LINE_13, "bytes over 127"),
    # 14.
    (b"F", FRAME_14, "no sum"),
    (b"F,ok,3", FRAME_14, "an answer read as a line"),
    (b"F,5,1", FRAME_14, "a minute without a weight"),
    (b"F,5,1,2,3", FRAME_14, "second minute without a weight"),
    (b"F,0,", FRAME_14, "sum and an empty field"),
    (b"F,0,0,1,", FRAME_14, "comma at the end"),
    (b"F,x,1", FRAME_14, "14 before 15"),
    (b"F,0,5,1,4", FRAME_14, "14 before 11"),
    (b"F,0,5,0,6", FRAME_14, "14 before 12"),
    (b"F,0,60,1,61", FRAME_14, "14 before 2"),
    (b"F,1" + b",2" * 33, FRAME_14, "14 before 10"),
    (b"F,1000" + b",1" * 125, FRAME_14, "256 bytes, no pairs"),
    (b"F,10000" + b",1" * 125, LINE_13, "257 bytes, no pairs"),
    # 15.
    (b"F,", b"F,refused,line,15,2", "15 before 10: empty sum"),
    (b"F,,0,1", b"F,refused,line,15,2", "empty sum"),
    (b"F,P,0,1", b"F,refused,line,15,2", "a letter that names a field"),
    (b"F,05,0,1", b"F,refused,line,15,2", "leading zero"),
    (b"F,65536,0,1", b"F,refused,line,15,2", "too large"),
    (b"F,0,,1", b"F,refused,line,15,4", "empty minute"),
    (b"F,0,007,1", b"F,refused,line,15,4", "leading zeros"),
    (b"F,5,x,0", b"F,refused,line,15,4", "15 before 12"),
    (b"F,0,0,", b"F,refused,line,15,6", "empty weight"),
    (b"F,0,0,-1", b"F,refused,line,15,6", "minus before a weight"),
    (b"F,0,0,65536", b"F,refused,line,15,6", "65536 as weight"),
    (b"F,0,0,1\r", b"F,refused,line,15,6", "carriage return at the end"),
    (b"F,0,64,x", b"F,refused,line,15,7", "15 before 11"),
    (b"F,0,60,x", b"F,refused,line,15,7", "15 before 2"),
    (b"F,0,a,b", b"F,refused,line,15,4", "the first of two"),
    (b"F,31337,12,65535,13,", b"F,refused,line,15,20", "empty second weight"),
    (b"F,0" + b",1,1" * 16 + b",1,x", b"F,refused,line,15,70", "15 before 10"),
    (b"F,10" + b",1,1" * 62 + b",1,x", b"F,refused,line,15,255", "256 bytes, the last is bad"),
    (b"F,0" + b",1,1" * 62 + b",123,", b"F,refused,line,15,256", "256 bytes, empty field at the end"),
    # 10.
    (b"F,0", FRAME_10, "no terms"),
    (b"F,65535", FRAME_10, "no terms, largest sum"),
    (b"F,5" + b"".join(b",%d,1" % m for m in range(17)), FRAME_10, "17 good terms"),
    (b"F,1" + b",64,1" * 17, FRAME_10, "10 before 11: minutes over 63"),
    (b"F,1" + b",5,1" * 17, FRAME_10, "10 before 11: equal minutes"),
    (b"F,1" + b"".join(b",%d,0" % m for m in range(17)), FRAME_10, "10 before 12"),
    (b"F,1" + b"".join(b",%d,1" % m for m in range(44, 61)), FRAME_10, "10 before 2"),
    # 11.
    (b"F,0,64,1", b"F,refused,frame,11,0", "64 as the first minute"),
    (b"F,0,65535,1", b"F,refused,frame,11,0", "65535 as the first minute"),
    (b"F,0,3,1,3,1", b"F,refused,frame,11,1", "equal minutes"),
    (b"F,0,5,1,4,1", b"F,refused,frame,11,1", "falling minutes"),
    (b"F,5,3,0,3,1", b"F,refused,frame,11,1", "11 before 12: the weight 0 is earlier"),
    (b"F,0,64,0", b"F,refused,frame,11,0", "11 before 12: same term"),
    (b"F,0,60,1,64,1", b"F,refused,frame,11,1", "11 before 2: the minute beyond the width is earlier"),
    (b"F,0,62,1,61,1", b"F,refused,frame,11,1", "11 before 2: falling beyond the width"),
    (b"F,0" + b"".join(b",%d,1" % m for m in range(49, 65)), b"F,refused,frame,11,15", "last of 16 terms over 63"),
    (b"F,0" + b"".join(b",%d,1" % m for m in range(15)) + b",14,1", b"F,refused,frame,11,15", "last of 16 terms equal"),
    # 12.
    (b"F,0,0,0", b"F,refused,frame,12,0", "weight 0"),
    (b"F,9,1,1,2,0", b"F,refused,frame,12,1", "second weight"),
    (b"F,9,1,65521,2,0,3,0", b"F,refused,frame,12,1", "65521 is no word 0"),
    (b"F,0,60,0", b"F,refused,frame,12,0", "12 before 2: same term"),
    (b"F,0,58,1,60,1,61,0", b"F,refused,frame,12,2", "12 before 2: the minute beyond the width is earlier"),
    (b"F,0" + b"".join(b",%d,10" % m for m in range(15)) + b",59,0", b"F,refused,frame,12,15", "last of 16 weights"),
    # 2.
    (b"F,0,60,1", b"F,refused,block,2,0", "the first minute beyond the width"),
    (b"F,0,63,65535", b"F,refused,block,2,0", "the last minute of a frame"),
    (b"F,0,62,65521", b"F,refused,block,2,0", "a weight that is 0 as a code"),
    (b"F,0,59,1,60,1", b"F,refused,block,2,1", "the second term"),
    (b"F,0,1,1,60,1,61,1,62,1", b"F,refused,block,2,1", "the first of three"),
    (b"F,0" + b"".join(b",%d,1" % m for m in range(45, 61)), b"F,refused,block,2,15", "last of 16 terms"),
    (b"F,0" + b"".join(b",%d,1" % m for m in range(48, 64)), b"F,refused,block,2,12", "four of 16 terms"),
]

# In an hour of 60 minutes with 96 rows.
FULL = [
    (b"F,0,0,1", FRAME_5, "a good frame"),
    (b"F,65535,59,65535", FRAME_5, "another"),
    (b"F,0,59,65521", FRAME_5, "a row of zeros"),
    (b"F,0" + b"".join(b",%d,1" % m for m in range(16)), FRAME_5, "16 terms"),
    (b"F,0,60,1", b"F,refused,block,2,0", "2 before 5"),
    (b"F,0,3,1,63,1", b"F,refused,block,2,1", "2 before 5: the second term"),
    (b"F,0,3,0", b"F,refused,frame,12,0", "12 before 5"),
    (b"F,0,3,1,2,1", b"F,refused,frame,11,1", "11 before 5"),
    (b"F,0", FRAME_10, "10 before 5"),
    (b"F,0,3,x", b"F,refused,line,15,6", "15 before 5"),
    (b"F,0,3", FRAME_14, "14 before 5"),
    (b"F,0,3,1" + b" " * 250, LINE_13, "13 before 5"),
    (b"O,P,60", OPEN_13, "a second hour"),
    (b"F,0,3,4", FRAME_5, "still full"),
]


class Numbers:
    """Numbers that look random and are the same on every machine."""

    def __init__(self, seed):
        self.state = seed

    def below(self, bound):
        """A number below a bound of at most 65536."""
        self.state = (self.state * 1664525 + 1013904223) % 2**32
        return (self.state >> 16) * bound >> 16

    def chosen(self, items, count):
        """Some of the items, in their order."""
        left = list(range(len(items)))
        places = sorted(left.pop(self.below(len(left))) for _ in range(count))
        return [items[place] for place in places]


class Hour:
    """A log of an hour under way: lines with their answers. The level at each minute is a code other than 0 that moves
    a little from minute to minute: millimetres in the prime field, centimetres in octets. Frames fit the levels."""

    def __init__(self, letter, width, seed):
        self.letter = letter
        self.field = profile.FIELDS[letter]
        self.width = width
        self.numbers = Numbers(seed)
        self.levels = []
        self.lines = []
        self.frames = []  # the weights of each frame, as codes by minute
        level, step, low, high = (2310, 19, 1500, 3200) if letter == b"P" else (141, 3, 60, 220)
        for _ in range(width):
            level = min(max(level + self.numbers.below(2 * step + 1) - step, low), high)
            self.levels.append(level)

    def add(self, line, answer):
        self.lines.append((line, answer))

    def open(self):
        self.add(b"O,%s,%d" % (self.letter, self.width), b"O,ok,%d" % self.width)

    def word(self, code, zero=True):
        """A word that is read as this code; not 0 itself without zero."""
        words = range(code, 65536, self.field.q)
        if len(words) > 1 and self.numbers.below(2) == 0:
            return words[1 + self.numbers.below(len(words) - 1)]
        return words[0] if zero or code != 0 else words[1]

    def total(self, weights):
        total = 0
        for minute, weight in weights.items():
            total = self.field.plus(total, self.field.times(weight, self.levels[minute]))
        return total

    def take(self, weights, error=0):
        """Adds the frame of these weights; an error is added to its sum."""
        numbers = [self.word(self.field.plus(self.total(weights), error))]
        for minute in sorted(weights):
            numbers += [minute, self.word(weights[minute], zero=False)]
        self.add(b"F," + b",".join(b"%d" % number for number in numbers), b"F,ok,%d" % len(self.frames))
        self.frames.append(weights)

    def fresh(self, minutes, most=16):
        """A frame of some of these minutes. One weight in 32 is 0 as a code."""
        chosen = self.numbers.chosen(minutes, 1 + self.numbers.below(min(most, len(minutes))))
        return {m: 0 if self.numbers.below(32) == 0 else 1 + self.numbers.below(self.field.q - 1) for m in chosen}

    def multiple(self):
        """A frame taken before, times a code."""
        factor = 1 + self.numbers.below(self.field.q - 1)
        other = self.frames[self.numbers.below(len(self.frames))]
        return {m: self.field.times(factor, weight) for m, weight in other.items()}

    def joined(self):
        """Two frames taken before, added up; none where that has over 16 terms."""
        weights = {}
        for other in (self.frames[self.numbers.below(len(self.frames))] for _ in range(2)):
            for m, weight in other.items():
                weights[m] = self.field.plus(weights.get(m, 0), weight)
        return weights if len(weights) <= 16 else None

    def gather(self, count, minutes=None, most=16):
        """Takes frames of these minutes until there are so many; about a third depend on frames before them."""
        minutes = list(range(self.width)) if minutes is None else minutes
        while len(self.frames) < count:
            pick = self.numbers.below(6) if self.frames else 5
            weights = self.multiple() if pick == 0 else self.joined() if pick == 1 else None
            self.take(weights or self.fresh(minutes, most))

    def solved(self):
        """The outcome where the frames determine all levels: none is 0, so each minute becomes a pivot column."""
        return ",".join(map(str, ["solved", "whole", self.width, 2 * self.width + 1] + self.levels)).encode()


class Case:
    """The lines with their answers, and the last two lines: None is left to profile.py, and so is what follows a text
    that ends in a comma."""

    def __init__(self, name, lines, ends=(None, None), last_newline=True):
        self.name = name
        self.lines = lines
        self.ends = ends
        self.stdin = b"".join(line + b"\n" for line, _ in lines)
        if not last_newline:
            self.stdin = self.stdin[:-1]

    @functools.cached_property
    def given(self):
        return profile.answers(self.stdin)

    @functools.cached_property
    def stdout(self):
        answers = [answer for _, answer in self.lines]
        if any(answer.startswith(b"O,ok") for answer in answers):
            for end, line in zip(self.ends, self.given.split(b"\n")[-3:]):
                begins = end is not None and end.endswith(b",")
                answers.append(line if end is None or begins and line.startswith(end) else end)
        return b"".join(answer + b"\n" for answer in answers)


def whole_hour(name, letter, width, seed):
    hour = Hour(letter, width, seed)
    hour.open()
    hour.gather(96)
    return Case(name, hour.lines, (b"profile,%d," % width, hour.solved()))


def full_frames(name, letter, seed):
    """64 minutes and 96 frames of 16 terms with no weight 0."""
    hour = Hour(letter, 64, seed)
    hour.open()
    for _ in range(96):
        minutes = hour.numbers.chosen(range(64), 16)
        hour.take({m: 1 + hour.numbers.below(hour.field.q - 1) for m in minutes})
    return Case(name, hour.lines, (b"profile,64,", hour.solved()))


def dispute(name, letter, width, wrong, early, seed):
    """One frame of a good hour has a sum that is 1 too much. Found out early it is another frame times a code; else it
    is a frame of its own, found out once all minutes are pivot columns."""
    hour = Hour(letter, width, seed)
    hour.open()
    hour.gather(wrong)
    hour.take(hour.multiple() if early else hour.fresh(list(range(width))), error=1)
    hour.gather(96)
    end = b"contradiction," if early else b"contradiction,%d,%d," % (width, 2 * width + 2)
    return Case(name, hour.lines, (b"profile,%d," % width, end))


def part(name, letter, width, heard, count, seed):
    """The frames name some minutes only."""
    hour = Hour(letter, width, seed)
    hour.open()
    hour.gather(count, minutes=heard)
    return Case(name, hour.lines, (None, b"solved,part,"))


def refusals(seed):
    """All refusals around the frames of an hour of 60 minutes, which is solved; the last line lacks its byte 10."""
    hour = Hour(b"P", 60, seed)
    for line, answer, _ in CLOSED:
        hour.add(line, answer)
    hour.open()
    for at, (line, answer, _) in enumerate(OPEN):
        hour.add(line, answer)
        hour.gather(at)
    hour.gather(96)
    for line, answer, _ in FULL:
        hour.add(line, answer)
    return Case("refusals", hour.lines, (b"profile,60,", hour.solved()), last_newline=False)


def zero_sums(seed):
    """No level is above 0, so the first question is answered none, whatever the rank."""
    hour = Hour(b"B", 64, seed)
    hour.levels = [0] * 64
    hour.open()
    hour.gather(96)
    return Case("zero_sums", hour.lines, (b"profile,64,", b"solved,part,0,1" + b",0" * 64))


def small(name, lines, ends=(None, None), last_newline=True):
    """Lines that are all accepted, with their ends written out."""
    opening, *frames = lines
    answers = [(opening, b"O,ok," + opening.split(b",")[2])]
    answers += [(frame, b"F,ok,%d" % row) for row, frame in enumerate(frames)]
    return Case(name, answers, ends, last_newline)


def cases():
    gap = [m for m in range(64) if not 20 <= m < 31]
    return [
        refusals(60),
        whole_hour("prime_hour", b"P", 64, 1),
        whole_hour("octet_hour", b"B", 64, 2),
        full_frames("prime_full_frames", b"P", 3),
        full_frames("octet_full_frames", b"B", 4),
        dispute("prime_dispute", b"P", 64, 40, False, 5),
        dispute("prime_early_dispute", b"P", 64, 40, True, 11),
        dispute("octet_dispute", b"B", 48, 60, False, 12),
        dispute("octet_early_dispute", b"B", 48, 60, True, 6),
        part("prime_part", b"P", 64, gap, 96, 7),
        part("octet_part", b"B", 64, gap, 70, 8),
        part("few_frames", b"P", 64, list(range(64)), 30, 9),
        part("few_frames_octets", b"B", 40, list(range(40)), 36, 13),
        zero_sums(10),
        # 5 and 5 + 7 = 12; then 2 * 5 + 7 is not 18.
        small("two_minutes", [b"O,P,2", b"F,5,0,1", b"F,12,0,1,1,1"], (b"profile,2,0,1", b"solved,whole,2,5,5,7")),
        small(
            "two_minutes_dispute",
            [b"O,P,2", b"F,5,0,1", b"F,12,0,1,1,1", b"F,18,0,2,1,1"],
            (b"profile,2,0,1", b"contradiction,2,6,65520,65520,1"),
        ),
        # Minute 0 becomes the pivot column, and minute 1 is free.
        small("first_column", [b"O,P,2", b"F,3,0,1,1,1"], (b"profile,1,0", b"solved,part,1,3,3,0")),
        # The rows (1,1), (2,2), (0,1) have the profile 0, 2.
        small(
            "twice_a_row",
            [b"O,P,2", b"F,3,0,1,1,1", b"F,6,0,2,1,2", b"F,1,1,1"],
            (b"profile,2,0,2", b"solved,whole,2,5,2,1"),
        ),
        # The first row holds at first: row 1 is the first pivot, and then row 0 no longer holds.
        small(
            "later_row_first",
            [b"O,P,2", b"F,0,0,1,1,1", b"F,4,0,2"],
            (b"profile,2,0,1", b"solved,whole,2,5,2,65519"),
        ),
        # 1 / 2 is 32761 modulo 65521; 65521 is 0 and 65523 is 2.
        small(
            "one_minute",
            [b"O,P,1", b"F,65521,0,65521", b"F,1,0,65523", b"F,2,0,4"],
            (b"profile,1,1", b"solved,whole,1,3,32761"),
        ),
        # 1 / 2 is 142 in the octets; 256 is 0 and 258 is 2.
        small(
            "one_minute_octets",
            [b"O,B,1", b"F,256,0,256", b"F,1,0,258", b"F,2,0,4"],
            (b"profile,1,1", b"solved,whole,1,3,142"),
        ),
        # 65521 is 241 in the octets and 65535 is 255.
        small(
            "large_words_octets",
            [b"O,B,1", b"F,65521,0,65521", b"F,65535,0,65535"],
            (b"profile,1,0", b"solved,whole,1,3,1"),
        ),
        small(
            "one_minute_dispute",
            [b"O,P,1", b"F,5,0,1", b"F,6,0,1"],
            (b"profile,1,0", b"contradiction,1,4,65520,1"),
        ),
        small("one_minute_of_zero", [b"O,P,1", b"F,0,0,1"], (b"profile,1,0", b"solved,part,0,1,0")),
        # No pivot has been found when the row of zeros turns up.
        small(
            "zeros_dispute",
            [b"O,B,3", b"F,0,1,7", b"F,1,0,256,2,512", b"F,3,0,1"],
            (b"profile,2,0,2", b"contradiction,0,2,0,1,0"),
        ),
        small("zeros", [b"O,B,2", b"F,256,0,256,1,65280"], (b"profile,0", b"solved,part,0,1,0,0")),
        small("no_frames", [b"O,P,64"], (b"profile,0", b"solved,part,0,1" + b",0" * 64)),
        small("no_frames_octets", [b"O,B,1"], (b"profile,0", b"solved,part,0,1,0"), last_newline=False),
        Case("no_hour", [(line, answer) for line, answer, _ in CLOSED], last_newline=False),
        Case("empty_line", [(b"", LINE_13)]),
        Case("empty", []),
    ]


def wrong_in(case):
    """What is wrong with the answers of a case, or None."""
    if case.given != case.stdout:
        for (line, answer), given in zip(case.lines, case.given.split(b"\n")):
            if given != answer:
                return "%r: expected %r, profile.py gives %r" % (line[:80], answer, given)
        return "profile.py gives other last lines: %r" % case.given.split(b"\n")[-3:]
    return profile_check.check(case.stdin, case.stdout)


def write(folder, case):
    os.makedirs(folder, exist_ok=True)
    for name, content in (("stdin", case.stdin), ("stdout", case.stdout)):
        with open(os.path.join(folder, name), "wb") as file:
            file.write(content)


def write_gate(every):
    crates = os.path.join(os.path.dirname(os.path.dirname(os.path.abspath(__file__))), "crates")
    files = [case for case in every if case.name != "refusals"]
    write(os.path.join(crates, "profile"), next(case for case in every if case.name == "refusals"))
    folder = os.path.join(crates, "profilecases")
    os.makedirs(os.path.join(folder, "data"), exist_ok=True)
    for case in files:
        with open(os.path.join(folder, "data", case.name + ".log"), "wb") as file:
            file.write(case.stdin)
    with open(os.path.join(folder, "args"), "w") as file:
        file.write("".join(case.name + ".log\n" for case in files))
    with open(os.path.join(folder, "stdout"), "wb") as file:
        file.write(b"".join(case.name.encode() + b".log\n" + case.stdout for case in files))


def main():
    words = [word for word in sys.argv[1:] if word != "--check"]
    every = cases()
    if words == ["--gate"]:
        wanted = every
        write_gate(every)
    elif len(words) == 1:
        wanted = every
        for case in every:
            write(os.path.join(words[0], case.name), case)
    elif len(words) == 2 and words[1] in [case.name for case in every]:
        wanted = [case for case in every if case.name == words[1]]
        write(words[0], wanted[0])
    else:
        sys.exit(__doc__ + "\nThe logs: " + " ".join(case.name for case in every))
    if "--check" in sys.argv[1:]:
        bad = [(case.name, wrong_in(case)) for case in wanted]
        bad = [(name, wrong) for name, wrong in bad if wrong is not None]
        for name, wrong in bad:
            print("%s: %s" % (name, wrong))
        lines = sum(len(case.lines) for case in wanted)
        print("%d logs, %d lines, %d logs with differences" % (len(wanted), lines, len(bad)))
        sys.exit(1 if bad else 0)


if __name__ == "__main__":
    main()
