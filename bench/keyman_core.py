"""A model of Keyman's own engine (Keyman Core), which plays an exported keyboard key press by key press. The comments name the rules of the
engine, and the definitions of `core_meaning` that state them (`docs/MEANING.md`). The model is about items of the text, where the engine
works on units of 16 bits. Both do the same with exported files, because the exporter refuses the items that the engine misreads.
`bench/export` uses it. `Model` and `Library` play in the same way: `begin` starts with a text, and `press` presses a key."""

import collections
import ctypes
import struct

LCTRL, RCTRL, LALT, RALT, SHIFT, CTRL, ALT, CAPS, NCAPS = 1, 2, 4, 8, 16, 32, 64, 256, 512
CONTROLS, ALTS = LCTRL | RCTRL, LALT | RALT
BACKSPACE, KEYPAD = 8, {*range(96, 112)} - {108}
PLATFORM = 31
PLATFORM_WORDS = "windows hardware desktop native".split()
WINDOW_UNITS, QUEUE_PLACES, ENTRIES = 63, 1024, 50

# The items of a string: the code of each, its name, and its numbers. `n` is a number. `s` is stored as one more: the number of a store
# or a group, or a system id.
ITEMS = {0x01: ("any", "s"), 0x02: ("index", "sn"), 0x03: ("context", ""), 0x04: ("nul", ""), 0x05: ("use", "s"), 0x06: ("return", ""),
         0x07: ("beep", ""), 0x08: ("deadkey", "n"), 0x0A: ("key", "nnn"), 0x11: ("context at", "n"), 0x12: ("notany", "s"), 0x13: ("set", "ss"),
         0x14: ("if", "sns"), 0x15: ("save", "s"), 0x16: ("reset", "s"), 0x17: ("system if", "sns"), 0x18: ("system set", "ss")}
CONDITIONS, TEXT = ("if", "system if"), ("character", "deadkey")

Store = collections.namedtuple("Store", "system name elements")
Group = collections.namedtuple("Group", "records match nomatch using_keys")
Record = collections.namedtuple("Record", "key line flags output context")

# The characters of keys, without and with SHIFT.
SIGNS = [*range(48, 58), *range(186, 193), *range(219, 223)]
PLAIN_SIGNS, SHIFTED_SIGNS = dict(zip(SIGNS, "0123456789;=,-./`[\\]'")), dict(zip(SIGNS, ")!@#$%^&*(:+<_>?~{|}\""))


# ---- the tables of a file

def string(data, offset):
    """Returns the items of a string of a file."""
    unit = lambda at: struct.unpack_from("<H", data, at)[0]
    items = []
    while offset and unit(offset):
        code = unit(offset)
        if code == 0xFFFF:
            name, kinds = ITEMS[unit(offset + 2)]
            items.append((name, *(unit(offset + 4 + 2 * at) - (kind == "s") for at, kind in enumerate(kinds))))
            offset += 4 + 2 * len(kinds)
        elif 0xD800 <= code < 0xDC00:
            items.append(("character", 0x10000 + ((code - 0xD800) << 10) + unit(offset + 2) - 0xDC00))
            offset += 4
        else:
            items.append(("character", code))
            offset += 2
    return items


def tables(data):
    """Returns the stores and groups of a file, and the number of the first group."""
    words = lambda count, at: struct.unpack_from(f"<{count}I", data, at)
    store_count, group_count, stores_at, groups_at, _, start = words(6, 24)
    stores = [Store(system, string(data, name), string(data, elements))
              for system, name, elements in (words(3, stores_at + 12 * at) for at in range(store_count))]
    groups = []
    for _, records_at, match, nomatch, count, using_keys in (words(6, groups_at + 24 * at) for at in range(group_count)):
        records = []
        for at in range(count):
            key, line, flags, output, context = words(5, records_at + 20 * at)
            records.append(Record(key & 0xFFFF, line, flags, string(data, output), string(data, context)))
        groups.append(Group(records, string(data, match), string(data, nomatch), using_keys != 0))
    return stores, groups, start


# ---- keys

def character_of(code, modifiers):
    """The character of a press (VKeyToChar, `core_char`): with only SHIFT and caps lock held, and none for a key of the keypad."""
    if modifiers & ~(SHIFT | CAPS):
        return None
    if 65 <= code <= 90:
        return code if bool(modifiers & SHIFT) != bool(modifiers & CAPS) else code + 32
    found = " " if code == 32 else (SHIFTED_SIGNS if modifiers & SHIFT else PLAIN_SIGNS).get(code)
    return ord(found) if found else None


def flags_fit(flags, modifiers):
    """Whether flags fit the held modifiers (IsEquivalentShift, `core_flags_fit`)."""
    if flags & CAPS and not modifiers & CAPS or flags & NCAPS and modifiers & CAPS:
        return False
    # While both sides are held, no flags fit.
    if modifiers & CONTROLS == CONTROLS or modifiers & ALTS == ALTS:
        return False
    if flags & (CTRL | ALT):
        held = (CTRL if modifiers & CONTROLS else 0) | (ALT if modifiers & ALTS else 0) | modifiers & SHIFT
        return not flags & (CONTROLS | ALTS) and flags & (CTRL | ALT | SHIFT) == held
    named, held = (it & (CONTROLS | ALTS | SHIFT) for it in (flags, modifiers))
    # LCTRL RALT also fits RALT, without SHIFT.
    return named == held or named == LCTRL | RALT and held == RALT


def moves_caret(code, modifiers):
    """Whether version 18 drops its context after it passes on a key (state_should_invalidate_context, `resets_context`)."""
    return bool(modifiers & (CONTROLS | ALTS)) or code < 16 or code == 19 or 21 <= code <= 31 or 33 <= code <= 44 or code in (46, 47) \
        or 112 <= code <= 135


# ---- the text

def weight(item):
    return 3 if item[0] == "deadkey" else 1 if item[1] < 0x10000 else 2


def window_of(items):
    """The longest end of at most 63 units (KMX_Context::Set, `window_of`)."""
    units, at = 0, len(items)
    while at and units + weight(items[at - 1]) <= WINDOW_UNITS:
        at -= 1
        units += weight(items[at])
    return items[at:]


def has_platform(value):
    """Whether the platform has each word of a value, in any ASCII case (IsMatchingPlatform). A space at its start or end makes an empty
    word, and no platform has one."""
    text = "".join(chr(it[1]) if it[0] == "character" else "\0" for it in value)
    words = [word.encode().lower().decode() for word in text.split(" ") if word]
    return text == text.strip(" ") != "" and all(word in PLATFORM_WORDS for word in words)


class Model:
    """The engine with an exported file. `version` is 16 or 18. The engine never sets the flag that output has ended before the first
    press, so `ended` is its value then. After a press, `lines` are the lines of the rules that it took, `entered` the groups that it
    entered, `passed` whether the key is passed on, and `lost` whether effects are lost because the queue is full."""

    def __init__(self, data, version=18, ended=False):
        self.stores, self.groups, self.start = tables(data)
        self.version, self.ended_at_first = version, ended
        self.begin("")

    def begin(self, text):
        """Begins again with a text before the caret."""
        self.left = [("character", ord(it)) for it in text]
        self.values = [store.elements for store in self.stores]
        self.saved = {}
        self.kept, self.skipped, self.places, self.ended = [], 0, {}, self.ended_at_first

    def text(self):
        return [it[1] for it in self.left if it[0] == "character"]

    def press(self, code, modifiers):
        """A key press (process_event, `core_step`)."""
        self.window, self.queued, self.entries, self.to_save = window_of(self.left), 0, 0, []
        self.code, self.modifiers, self.character = code, modifiers, character_of(code, modifiers)
        self.lines, self.entered, self.passed, self.lost = [], set(), False, False
        self.enter(self.start)
        # A saved option has the value that it has at the end of the event (internal_process_queued_actions).
        for store in self.to_save:
            self.saved[store] = self.values[store]
        if self.passed and self.version >= 18 and moves_caret(code, modifiers):
            self.left = [it for it in self.left if it[0] == "character"]

    def queue(self):
        """Takes a place in the queue (QueueAction, `core_queue`). Returns False if it is full: then the effect is lost."""
        self.queued += 1
        self.lost = self.lost or self.queued > QUEUE_PLACES
        return self.queued <= QUEUE_PLACES

    def put(self, item):
        """Appends an item to the text and to the window, which loses items at its front. A virtual key is not an item of a text."""
        if item[0] in TEXT and self.queue():
            self.left = self.left + [item]
            self.window = window_of(self.window + [item])

    def delete(self):
        """Deletes an item. The window stays shorter until the next event."""
        if self.queue():
            self.left, self.window = self.left[:-1], self.window[:-1]

    def delete_deadkeys(self):
        while self.window and self.window[-1][0] == "deadkey" and not self.lost:
            self.delete()

    # ---- contexts

    def is_true(self, condition):
        """Whether a condition is true (ContextMatch, `core_condition`)."""
        kind, store, sign, value = condition
        value = self.values[value]
        if kind == "if":
            return (self.values[store] == value) == (sign == 2)
        if store == PLATFORM:
            return has_platform(value) == (sign == 2)
        # A system id of which the file has no store: such a rule never matches.
        found = [self.values[at] for at, it in enumerate(self.stores) if it.system == store]
        return bool(found) and (found[0] == value) == (sign == 2)

    def matches(self, context):
        """Whether a context matches the end of the window (ContextMatch, `core_holds`). Sets `places`: where the compared items were found
        in their stores, by their numbers."""
        self.places = {}
        begins = context[:1] == [("nul",)]
        items = context[1:] if begins else context
        count = sum(it[0] not in CONDITIONS for it in items)
        # A `nul` at the beginning: the window has no other items.
        if count > len(self.window) or begins and count < len(self.window):
            return False
        if not all(self.is_true(it) for it in context if it[0] in CONDITIONS):
            return False
        compared = self.window[len(self.window) - count:]
        # Version 16 does not count a first `nul`.
        number, seen = int(begins and self.version >= 18), 0
        for pattern in items:
            number += 1
            if pattern[0] in CONDITIONS:
                continue
            if not self.is_matched(pattern, number, compared, seen):
                return False
            seen += 1
        return True

    def is_matched(self, pattern, number, compared, seen):
        """Whether an item of a context matches the next compared item (`core_matches`)."""
        item = compared[seen]
        kind = pattern[0]
        if kind in TEXT:
            return pattern == item
        if kind in ("any", "notany"):
            elements = self.values[pattern[1]]
            if kind == "any" and item in elements:
                self.places[number] = elements.index(item)
            return (item in elements) == (kind == "any")
        if kind == "index":
            self.places[number] = self.places.get(pattern[2], 0)
            return self.element(pattern[1], self.places[number]) == item
        if kind == "context at":
            # It counts compared items only, and matches anything if it does not name an earlier one.
            return pattern[1] > seen or compared[pattern[1] - 1] == item
        # A `nul` that is not the first item.
        return False

    def element(self, store, place):
        elements = self.values[store]
        return elements[place] if place < len(elements) else None

    # ---- groups and outputs

    def fits(self, record):
        """Whether the key of a record fits the press (ProcessGroup, `core_key_fits`)."""
        if record.flags == 0:
            return record.key == self.character
        return record.key == self.code and flags_fit(record.flags, self.modifiers)

    def enter(self, number):
        """Enters a group (ProcessGroup, `core_in_group`): takes the first record whose context matches and whose key fits. Without keys, a
        record with an empty context is not taken."""
        self.entries += 1
        if self.entries > ENTRIES:
            self.ended = True
            return
        self.entered.add(number)
        group = self.groups[number]
        for record in group.records:
            if self.matches(record.context) and (self.fits(record) if group.using_keys else record.context):
                self.take(group, record)
                return
        self.take_none(group)

    def take(self, group, record):
        """What a record does (ProcessGroup, `core_done`)."""
        self.lines.append(record.line)
        begins = record.context[:1] == [("nul",)]
        conditions = sum(it[0] in CONDITIONS for it in record.context)
        count = len(record.context) - conditions - begins
        self.kept = self.window[len(self.window) - count:]
        self.skipped = conditions + int(begins and self.version >= 18)
        output = record.output
        # What the context matched stays if the output begins with `context`.
        if output[:1] == [("context",)]:
            output = output[1:]
        else:
            for _ in range(count):
                self.delete()
        if self.act(output):
            self.act(group.match)

    def take_none(self, group):
        """What a group does without a record (ProcessGroup, `core_unmatched`). A press without a character never runs the `nomatch`."""
        if group.using_keys and self.character is None:
            if self.code != BACKSPACE or self.modifiers & (CONTROLS | ALTS):
                self.passed = True
                return
            self.delete_deadkeys()
            if not self.window:
                self.passed = True
                return
            self.delete()
            self.delete_deadkeys()
        elif group.nomatch:
            self.act(group.nomatch)
        elif group.using_keys:
            self.put(("character", self.character))

    def act(self, output):
        """Runs an output (PostString, `core_act`). Returns whether the `match` follows: not after a `use` or a `return`."""
        used = False
        for item in output:
            if item[0] == "return":
                # Nothing ever clears this flag.
                self.ended = True
                return False
            if item[0] == "use":
                self.enter(item[1])
                if self.ended:
                    return False
                used = True
            else:
                self.act_one(item)
        return not used

    def act_one(self, item):
        """What an item of an output does (`core_act_one`). After a `use`, `context` and `index` are about the record of the used group."""
        kind = item[0]
        if kind in TEXT:
            self.put(item)
        elif kind == "context":
            for kept in self.kept:
                self.put(kept)
        elif kind == "context at":
            place = max(0, item[1] - 1 - self.skipped)
            for kept in self.kept[place:place + 1]:
                self.put(kept)
        elif kind == "index":
            found = self.element(item[1], self.places.get(item[2], 0))
            if found:
                self.put(found)
        elif kind == "beep":
            self.queue()
        elif kind == "set":
            self.values[item[1]] = self.values[item[2]]
        elif kind == "reset":
            self.values[item[1]] = self.saved.get(item[1], self.stores[item[1]].elements)
        elif kind == "save" and self.stores[item[1]].name and self.queue():
            self.to_save.append(item[1])


# ---- a built library

class Action(ctypes.Structure):
    """An action of the library. Its value is a character, or the type of what is deleted."""

    _fields_ = [("type", ctypes.c_uint8), ("value", ctypes.c_uint64), ("more", ctypes.c_uint64)]


CHARACTER_ACTION, DELETION_ACTION, PASS_ACTION = 1, 4, 6
CHARACTER_DELETED = 1


class Library:
    """A built library of the engine with an exported file. It was tested with version 16.0 (`libkmnkbp0.so.0`)."""

    def __init__(self, path, file):
        self.library = ctypes.CDLL(path)
        self.prefix = "km_core_" if hasattr(self.library, "km_core_process_event") else "km_kbp_"
        self.file, self.keyboard, self.state = file.encode(), None, None
        self.begin("")

    def call(self, name, *values, result=ctypes.c_int):
        function = getattr(self.library, self.prefix + name)
        function.restype = result
        return function(*values)

    def made(self, name, *values):
        """Returns the object that a call makes. Raises an error if the call fails."""
        out = ctypes.c_void_p()
        status = self.call(name, *values, ctypes.byref(out))
        if status:
            raise OSError(f"{name} of the library ended with status {status}")
        return out

    def begin(self, text):
        """Loads the keyboard again, since it has the values of options, and begins with a text before the caret."""
        if self.state:
            self.call("state_dispose", self.state, result=None)
            self.call("keyboard_dispose", self.keyboard, result=None)
        self.keyboard = self.made("keyboard_load", self.file)
        # No options of the environment: an item of two null pointers and a scope.
        self.state = self.made("state_create", self.keyboard, (ctypes.c_void_p * 3)())
        self.characters, self.passed = [ord(it) for it in text], False
        text = "".join(map(chr, self.characters)).encode("utf-16-le") + bytes(2)
        items = self.made("context_items_from_utf16", text)
        context = ctypes.c_void_p(self.call("state_context", self.state, result=ctypes.c_void_p))
        self.call("context_set", context, items)
        self.call("context_items_dispose", items, result=None)

    def press(self, code, modifiers):
        status = self.call("process_event", self.state, ctypes.c_uint16(code), ctypes.c_uint16(modifiers), ctypes.c_uint8(1), ctypes.c_uint16(0))
        if status:
            raise OSError(f"process_event of the library ended with status {status}")
        count = ctypes.c_size_t()
        actions = self.call("state_action_items", self.state, ctypes.byref(count), result=ctypes.POINTER(Action))
        actions = [actions[at] for at in range(count.value)]
        for action in actions:
            if action.type == CHARACTER_ACTION:
                self.characters.append(action.value & 0xFFFF_FFFF)
            elif action.type == DELETION_ACTION and action.value & 0xFF == CHARACTER_DELETED:
                del self.characters[-1:]
        self.passed = PASS_ACTION in [action.type for action in actions]

    def text(self):
        return self.characters
