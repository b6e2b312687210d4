"""Images made by hand, word by word, of calls of services: with an area's words written over, and with arguments that
calls can't have."""
import struct

MAGIC, VERSION, ECALL = 0x52494C50, 1, 0x73
ALL_ONES = 0xFFFFFFFF
A0, A7 = 10, 17
# (the numbers of the signatures: a FIXED of 31 bits, an AREA of 64 bytes)
NUMBER, AREA = 0, 1
CAPACITY = 64
TABLE = [0, 1, 0, 1, 31, 0] + [0, 1, 0, 7, CAPACITY, 0]
# (places behind the code, for names, for the data of two areas, and for what services are told)
NAME, OTHER_NAME, FIRST, SECOND, UNKNOWN, DATA, OTHER_DATA, GIVEN = (0x10000 + 0x100 * at for at in range(8))
FRONT = 16
FINISHED, BAD = (0, b"", ""), (4, b"", "MACHINE 4 BadService")


def load(register, number):
    """The number in a register."""
    upper = (number + 0x800 >> 12 & 0xFFFFF) << 12 | register << 7 | 0x37
    return [upper, (number & 0xFFF) << 20 | register << 15 | register << 7 | 0x13]


def written(address, *words):
    """Words written from an address on."""
    store = 6 << 20 | 5 << 15 | 2 << 12 | 0x23
    return [it for at, word in enumerate(words) for it in [*load(6, word), *load(5, address + 4 * at), store]]


def call(number, *arguments):
    return [word for at, it in enumerate(arguments) for word in load(A0 + at, it)] + load(A7, number) + [ECALL]


def image(*code):
    words = [it for part in [*code, call(2, 0, 0)] for it in part]
    return struct.pack(f"<{6 + len(words) + len(TABLE)}I", MAGIC, VERSION, 0, len(words), 0, len(TABLE), *words, *TABLE)


# the main procedure, two areas, and in the first of them two generations with a gap in front
TWO_AREAS = [
    *call(4, 0, FIRST, 1, 0),
    *call(7, NAME, AREA, 0, DATA, 0),
    *call(7, OTHER_NAME, AREA, 0, OTHER_DATA, 0),
    *call(10, NAME, NUMBER, 0, 0, FIRST),
    *call(10, NAME, NUMBER, 0, 0, SECOND),
    *call(11, FIRST, NUMBER, NAME),
]
# (calls that meet the bytes of the first area)
MEETING = {
    "allocated in": call(10, NAME, NUMBER, 0, 0, FIRST),
    "freed in": call(11, SECOND, NUMBER, NAME),
    "found in": call(8, SECOND, NUMBER, 0, 0, 0),
    "addressed in": call(9, SECOND, NUMBER, FIRST),
    "assigned from": call(12, OTHER_NAME, NAME),
    "assigned to": call(12, NAME, OTHER_NAME),
    "emptied": call(13, NAME),
}
# (an area's own words before its generations; behind the first two nothing can be wrong)
OWN_WORDS = 2


def written_over():
    """An area is met with each of its words in turn written over with all ones. Where its mark or its capacity is gone
    it is no area; whatever else stands in it is one."""
    for name, meeting in MEETING.items():
        yield f"met {name}", image(TWO_AREAS, meeting), FINISHED
        for at in range((FRONT + CAPACITY) // 4):
            over = written(DATA + 4 * at, ALL_ONES)
            yield f"met {name}, word {at}", image(TWO_AREAS, over, meeting), BAD if at < OWN_WORDS else FINISHED


# (arguments that calls can't have: a mode, kind, class or condition outside its list, a code of more than 16 bits, a
# signature, a leaf or a variable that isn't there, an address outside memory or inside the code, an area that isn't
# there, an empty stack)
END = 1 << 24
IMPOSSIBLE = {
    0: [()], 42: [()], 43: [()], 99: [()], ALL_ONES: [()],
    1: [(1, 2), (1, ALL_ONES)],
    2: [(3, 0), (2, 0x10000), (ALL_ONES, 0)],
    3: [(2, 0, 0, 0), (ALL_ONES, 0, 0, 0), (NUMBER, ALL_ONES, 0, 0)],
    4: [(2, FIRST, 1, 0), (3, FIRST, 1, 0), (0, FIRST, 1, 1)],
    5: [(2,), (1,)],
    6: [(OTHER_DATA, 0), (FIRST, 2)],
    7: [(NAME, 2, 0, DATA, 0), (NAME, NUMBER, 0, DATA, 3), (0, NUMBER, 0, DATA, 0), (NAME, NUMBER, 0, 0, 0)]
    + [(NAME, NUMBER, ALL_ONES, DATA, 0), (ALL_ONES, NUMBER, 0, DATA, 0), (NAME, NUMBER, 0, END, 0)],
    8: [(NAME, 2, 0, 0, 0), (ALL_ONES, NUMBER, 0, 0, 0), (SECOND, NUMBER, 1, 0, 0)]
    + [(SECOND, NUMBER, 0, ALL_ONES, 0), (SECOND, NUMBER, 0, 0, 2)],
    9: [(SECOND, NUMBER, 0), (SECOND, NUMBER, ALL_ONES), (ALL_ONES, NUMBER, FIRST), (SECOND, 2, FIRST)],
    10: [(UNKNOWN, NUMBER, 0, 0, FIRST), (SECOND, NUMBER, 0, 0, FIRST), (NAME, AREA, 0, 0, FIRST)]
    + [(NAME, 2, 0, 0, FIRST), (NAME, NUMBER, 0, 0, 0), (NAME, NUMBER, 0, ALL_ONES, FIRST)]
    + [(ALL_ONES, NUMBER, 0, 0, FIRST)],
    11: [(SECOND, NUMBER, UNKNOWN), (SECOND, 2, NAME), (ALL_ONES, NUMBER, NAME)],
    12: [(UNKNOWN, NAME), (NAME, UNKNOWN), (SECOND, NAME), (NAME, SECOND), (ALL_ONES, NAME), (NAME, ALL_ONES)],
    13: [(UNKNOWN,), (SECOND,), (ALL_ONES,)],
    14: [(0, UNKNOWN, FIRST, 0), (0, NAME, 0, 0), (0, NAME, FIRST, 2), (ALL_ONES, NAME, 0, 1), (SECOND, UNKNOWN, 0, 1)],
    15: [(UNKNOWN, NUMBER, 0), (SECOND, 2, 0), (ALL_ONES, NUMBER, 0)],
    16: [(0x10000, NUMBER, 0), (1, 2, 0), (1, AREA, 0), (1, NUMBER, ALL_ONES)],
    17: [(0x10000,), (ALL_ONES,)],
    18: [(0x10000, FIRST), (ALL_ONES, FIRST)],
    19: [(0x10000,), (ALL_ONES,)],
    20: [(GIVEN, 1025, 0), (GIVEN, 1, 2), (ALL_ONES, 1, 0), (END, 1, 0)],
    22: [()], 23: [(1, 1, 4), (1, 1, 0)], 24: [()], 25: [(0,), (2,)], 26: [(0,), (2,)],
    27: [(GIVEN, 1, 0), (GIVEN, 1, 4)],
    28: [(0, 0), (6, 0)], 29: [(0,), (6,)], 30: [(0, 0, 0), (6, 0, 0), (5, 0x10000, 0)], 31: [()],
    34: [(GIVEN, 2), (ALL_ONES, 1), (0, 2)], 35: [()], 36: [(1, 1)], 37: [()], 38: [()],
    39: [(0, 1), (1001, 1), (1, 2)],
    40: [(GIVEN, 0, 1, 0, 0), (ALL_ONES, 0, 1, 0, 0), (GIVEN, 0, 1, 0, 2)], 41: [(GIVEN, 0, 0), (ALL_ONES, 0, 0)],
}


def impossible_calls():
    """Each of these calls beside areas that are there. A name of the serial 99 stands at UNKNOWN, of a variable."""
    before = [*TWO_AREAS, *written(UNKNOWN, 1, 0, 99, 0)]
    for number, calls in IMPOSSIBLE.items():
        for arguments in calls:
            yield f"impossible {number} {arguments}", image(before, call(number, *arguments)), BAD


EXTREMES = 0, 1, 2, ALL_ONES, 0x80000000, NAME, SECOND, UNKNOWN, DATA, GIVEN, END - 1


def any_calls(draws, count):
    """Calls of each number with arguments from a short list, before a procedure is entered and behind it."""
    for number in range(43):
        for turn in range(count):
            arguments = [EXTREMES[draws.next(len(EXTREMES))] for _ in range(6)]
            before = [*TWO_AREAS, *written(UNKNOWN, 1 + turn % 2, 0, 99, 0)] if turn % 4 else []
            yield f"any {number} {turn}", image(before, call(number, *arguments)), None
