"""The library's calls for Python, over a shared object of the static library. What include/station.h says of them in C holds here too.

    cc -shared -o libstation.so -Wl,--whole-archive libstation.a -Wl,--no-whole-archive

A chart owns its buffer, the first player's tables and scratch; a second player over it has settings and tables of their own. A call answers None or its numbers (an array of doubles) where
it is carried out, else a Refusal. Every call is guarded as in include/station_guarded.h: it gives the same bits whatever rounding, flushing or traps an extension module has set.
"""
import ctypes
import struct
from array import array
from ctypes import c_double, c_size_t, c_uint8, c_uint32, c_uint64, c_void_p

OBJECT, STATED_OBJECT, MOST = 56, 64, 16384  # bytes of an object without a stated length and with one; objects of a chart at most
SETTINGS = 48  # bytes of a player's settings; the first player's are those of the header, from byte 32 on
RECORD, VALUES, AIM, RHYTHM, TOTALS, COUNTS, RATINGS = 16, 5, 18, 2, 4, 7, 4  # numbers of each answer
SCRATCH = 8192
LISTED = 256  # offsets of a list into a pack at most

# Bits of the word of mods that comes with a call for ratings.
AUTOPILOT, RELAX, TOUCH_DEVICE, HIDDEN, FLASHLIGHT, TRACEABLE, FADE_ONLY = (1 << i for i in range(7))

WORDS = (
    "carried out",
    "the header is wrong, or its length is above the buffer's",
    "a setting is outside its range",
    "an object's own fields are wrong, or the object has another size than the chart's",
    "a slider's nested entries or points are wrong",
    "an object starts before the one before it",
    "the chart is too long in time",
    "a table, scratch, list or output is too short",
    "there is no such place",
    "there is no room for another object",
    "a number that comes with the call is not finite",
)


class Refusal:
    """Why a call was not carried out; it has changed nothing."""

    def __init__(self, code):
        self.number, self.place = code >> 32, code & 0xFFFFFFFF
        self.words = WORDS[self.number] if self.number < len(WORDS) else "an unknown condition"

    def __repr__(self):
        return f"refused {self.number} {self.place}: {self.words}"


class Library:
    """The shared object, and the environment of floating-point arithmetic in which it is called."""
    SLICE = (c_void_p, c_size_t)
    OPENED, FOUR = SLICE * 2, SLICE * 4
    TAKES = {
        "open": SLICE * 3,
        "replace": SLICE + (c_size_t,) + SLICE * 3,
        "insert": SLICE + (c_size_t,) + SLICE * 3,
        "remove": SLICE + (c_size_t,) + SLICE * 2,
        "read_record": OPENED + (c_size_t,) + SLICE,
        "read_values": OPENED + (c_size_t,) + SLICE,
        "read_aim_parts": OPENED + (c_size_t,) + SLICE,
        "read_rhythm": OPENED + (c_size_t,) + SLICE,
        "totals": OPENED + FOUR + SLICE,
        "counts": OPENED + FOUR + SLICE,
        "totals_to": OPENED + (c_size_t,) + FOUR + SLICE,
        "totals_while_playing": OPENED + SLICE + FOUR,
        "ratings": OPENED + (c_uint32, c_uint32) + SLICE + FOUR + SLICE,
        "rank": OPENED + (c_uint32, c_uint32) + SLICE * 3 + FOUR,
        "join": OPENED + (c_size_t, c_uint32, c_uint32) + SLICE * 3 + FOUR,
    }
    EDITS, PACKS = ("replace", "insert", "remove"), ("rank", "join")  # edits for both players take the second player's tables too; packs have one player
    DEFAULT = c_void_p(-1)  # FE_DFL_ENV

    def __init__(self, name):
        shared, mathematics = ctypes.CDLL(name), ctypes.CDLL("libm.so.6")
        self._get, self._set = mathematics.fegetenv, mathematics.fesetenv
        self._get.argtypes = self._set.argtypes = (c_void_p,)
        self._calls = {}
        for call, takes in self.TAKES.items():
            self._bind(shared, call, takes)
            if call in self.EDITS:
                self._bind(shared, call + "_both", self.SLICE + takes + self.SLICE * 2)
            elif call not in self.PACKS:
                self._bind(shared, call + "_as", self.SLICE + takes)  # settings are a slice behind the chart's

    def _bind(self, shared, call, takes):
        function = getattr(shared, "difficulty_" + call)
        function.argtypes, function.restype = takes, c_uint64
        self._calls[call] = function

    def answer(self, call, *given):
        """The library's answer; a slice is given as an array of ctypes, or as a pair of one and a length."""
        words = []
        for x in given:
            if isinstance(x, tuple):
                words += x
            elif isinstance(x, ctypes.Array):
                words += x, len(x)
            else:
                words.append(x)
        host = (c_uint64 * 8)()  # fenv_t has 32 bytes
        self._get(host)
        self._set(self.DEFAULT)
        try:
            return self._calls[call](*words)
        finally:
            self._set(host)


def object_size(chart):
    """Bytes of an object of this chart, by its word at 28."""
    return STATED_OBJECT if bytes(chart[28:32]) == b"\1\0\0\0" else OBJECT


def _count(chart):
    return struct.unpack("<I", chart[:4])[0] if len(chart) >= 4 else 0


class Player:
    """A player's tables of a chart, and what is read of them. The calls of the second player have settings behind the chart, and a suffix."""

    def __init__(self, library, entries, lent, suffix, shared):
        self._library, self._lent, self._suffix = library, lent, suffix
        self._records = (c_double * (RECORD * entries))()
        self._values = (c_double * (VALUES * entries))()
        self._scratch, self._list, self._out = shared

    def _carry(self, call, *given):
        code = self._library.answer(call, *given)
        return Refusal(code) if code else None

    def _ask(self, call, *given):
        return self._carry(call + self._suffix, *self._lent, *given)

    def _numbers(self, count, call, *given):
        return self._ask(call, *given, (self._out, count)) or array("d", bytes(self._out)[:8 * count])

    @property
    def objects(self):
        """How many objects the chart has, by its header."""
        return _count(bytes(self._lent[0][:4]))

    def open(self):
        return self._ask("open", self._records, self._values)

    def read_record(self, place):
        return self._numbers(RECORD, "read_record", self._records, place)

    def read_values(self, place):
        return self._numbers(VALUES, "read_values", self._values, place)

    def read_aim_parts(self, place):
        return self._numbers(AIM, "read_aim_parts", self._records, place)

    def read_rhythm(self, place):
        return self._numbers(RHYTHM, "read_rhythm", self._records, place)

    def totals(self):
        return self._numbers(TOTALS, "totals", self._values, *self._scratch)

    def counts(self):
        return self._numbers(COUNTS, "counts", self._values, *self._scratch)

    def totals_to(self, m):
        """The totals after the first m objects."""
        return self._numbers(TOTALS, "totals_to", self._values, m, *self._scratch)

    def totals_while_playing(self, entries=None):
        """The totals after 0, 1 and up to all objects, four numbers each, in a list of as many entries."""
        length = min(TOTALS * (self.objects + 1 if entries is None else entries), len(self._list))
        return (self._ask("totals_while_playing", self._values, (self._list, length), *self._scratch)
                or array("d", bytes(self._list)[:8 * length]))

    def ratings(self, mods, approach_rate, overall_difficulty, base_multiplier, attraction_strength=None, start_scale=None):
        """Aim, speed and flashlight ratings and the stars; the last two numbers are given where they are there."""
        given = (attraction_strength is not None) | (start_scale is not None) << 1
        numbers = (c_double * 5)(approach_rate, overall_difficulty, base_multiplier, attraction_strength or 0, start_scale or 0)
        return self._numbers(RATINGS, "ratings", self._values, mods, given, numbers, *self._scratch)


def _slice(b):
    return (c_uint8 * len(b)).from_buffer_copy(b)


class Chart(Player):
    """A chart with the first player's tables, whose settings are the header's, and room for as many objects more. It is not opened yet."""

    def __init__(self, library, chart, room=0):
        self._entries = (_count(chart) if _count(chart) <= MOST else 0) + room + 1  # one more than there is room for: a full chart is refused by 9, not by 7
        self.object_size = object_size(chart)
        self._chart = _slice(chart + bytes(room * self.object_size))
        shared = [(c_double * SCRATCH)() for _ in range(4)], (c_double * (TOTALS * self._entries))(), (c_double * AIM)()
        super().__init__(library, self._entries, (self._chart,), "", shared)

    @property
    def bytes(self):
        """The whole buffer, copied."""
        return bytes(self._chart)

    @property
    def settings(self):
        """The header's settings, copied."""
        return self.bytes[32:80]

    def object(self, place):
        """The bytes of the object at a place, copied."""
        return self.bytes[80 + self.object_size * place:][:self.object_size]

    def _edit(self, call, second, place, *obj):
        tables = (self._records, self._values)
        if second is None:
            return self._carry(call, self._chart, place, *obj, *tables)
        return self._carry(call + "_both", *second._lent, place, *obj, *tables, second._records, second._values)

    def replace(self, place, obj, second=None):
        """The edits are for both players where the second is given; else the second player's tables fall behind the chart."""
        return self._edit("replace", second, place, _slice(obj))

    def insert(self, place, obj, second=None):
        return self._edit("insert", second, place, _slice(obj))

    def remove(self, place, second=None):
        return self._edit("remove", second, place)


class Second(Player):
    """A second player over a chart, with settings in 48 bytes. It is not opened yet."""

    def __init__(self, chart, settings):
        super().__init__(chart._library, chart._entries, (chart._chart, _slice(settings)), "_as", (chart._scratch, chart._list, chart._out))

    @property
    def settings(self):
        return bytes(self._lent[1])

    @settings.setter
    def settings(self, settings):
        """Other settings; the tables are then to be opened anew."""
        self._lent = self._lent[0], _slice(settings)


def rank(library, pack, offsets, mods, numbers, given=0, first=0):
    """The offsets of charts in a pack put in order, the higher chart first, or a Refusal; `numbers` are the five that come with ratings. The first `first` offsets and
    the others may be listings already."""
    entries = max((min(_count(pack[o:o + 4]), MOST) for o in offsets), default=0)
    listed = (c_uint64 * len(offsets))(*offsets)
    tables = (c_double * (RECORD * entries))(), (c_double * (VALUES * entries))()
    code = library.answer("join", (c_uint8 * len(pack)).from_buffer_copy(pack), listed, first, mods, given, (c_double * 5)(*numbers), *tables,
                          *((c_double * SCRATCH)() for _ in range(4)))
    return Refusal(code) if code else list(listed)
