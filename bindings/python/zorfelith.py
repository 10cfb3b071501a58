"""Regex search over text in chunks: libzorfelith by ctypes, with nothing to build.

    import zorfelith

    dates = zorfelith.compile(r"(?P<year>\\d{4})-(\\d{2})")
    for found in dates.finditer([b"see 20", b"26-11, 2027", b"-01"]):
        print(found.span(), found.group("year"))

A text is an iterable of bytes-like objects, its chunks, or one such object. Nothing of it is joined or copied for a search. All places are in
bytes of the whole text, and the answers are those of the whole text, wherever it is cut.

The library is that of the environment's ZORFELITH_LIBRARY, a path; else libzorfelith.so.0, where the system's loader finds it.

A Pattern is used by the thread that compiled it; a call by another one raises RuntimeError. If it is dropped by another thread, its memory is
given back by the next `compile` of its own. The chunks of a text may not change while a search or a `finditer` goes over them: a bytearray
can't be resized then.
"""
import collections
import ctypes
import os
import re
import threading

__all__ = ["ALL", "Change", "Error", "Fault", "LEFTMOST_FIRST", "LEFTMOST_LONGEST", "Live", "Match", "Pattern", "Prepared", "Steps", "Stream", "compile",
           "escape", "explain", "version"]

LEFTMOST_FIRST, ALL, LEFTMOST_LONGEST = 0, 1, 2

_FOUND, _OUTSIDE, _ABSENT, _SHORT, _SYNTAX, _MORE_AFTER = 1, 4, 5, 6, 8, 15
_WORDS = {
    2: "the pattern was closed, or the text",
    3: "the text is too long",
    4: "the range is outside of the text",
    7: "pattern {pattern} isn't UTF-8",
    8: "pattern {pattern} isn't read: byte {at}",
    9: "the patterns are too large",
    10: "out of memory",
    11: "there is no such kind of match",
    12: "the settings are of a newer version",
    13: "the pattern keeps no live list",
    14: "the text doesn't have the length that the edit gives",
    16: "the bytes don't begin at the place that was asked for",
    17: "the pattern keeps no stream",
    18: "the stream was finished",
    19: "the stream would keep more bytes than its limit",
    20: "the pattern keeps no search in slices",
}
_FLAGS = ("case_insensitive", "multi_line", "dot_matches_new_line", "crlf", "swap_greed", "bytes", "any_bytes", "split_characters")
_LIMITS = ("size_limit", "cache_capacity")
_GRAMMAR = ("full",)
_BATCH = 256

_size = ctypes.c_size_t
_NONE = _size(-1).value


class _Bytes(ctypes.Structure):
    _fields_ = [("bytes", ctypes.c_void_p), ("len", _size)]


class _Handle(ctypes.Structure):
    _fields_ = [("full", ctypes.c_uint8), ("held", ctypes.c_void_p)]


class _Text(ctypes.Structure):
    _fields_ = [("full", ctypes.c_uint8), ("held", ctypes.c_void_p)]


class _Bounds(ctypes.Structure):
    _fields_ = [("start", _size), ("end", _size), ("anchored", ctypes.c_uint8)]


class _Settings(ctypes.Structure):
    _fields_ = [(name, ctypes.c_uint8) for name in (*_FLAGS, "kind")] + [(name, _size) for name in (*_LIMITS, *_GRAMMAR)]


class _Refused(ctypes.Structure):
    _fields_ = [("status", ctypes.c_uint32), ("pattern", _size), ("at", _size)]


class _Match(ctypes.Structure):
    _fields_ = [("pattern", _size), ("start", _size), ("end", _size)]


class _Group(ctypes.Structure):
    _fields_ = [("start", _size), ("end", _size)]


class _Fault(ctypes.Structure):
    _fields_ = [("start", _size), ("end", _size), ("len", _size)]


class _Replaced(ctypes.Structure):
    _fields_ = [("count", _size), ("len", _size), ("at", _size)]


class _Replacement(ctypes.Structure):
    _fields_ = [("found", _Match), ("len", _size), ("at", _size)]


class _Window(ctypes.Structure):
    _fields_ = [("start", _size), ("is_last", ctypes.c_uint8)]


class _Parts(ctypes.Structure):
    _fields_ = [("patterns", _size), ("cache", _size)]


class _Change(ctypes.Structure):
    _fields_ = [("first", _size), ("dropped", _size), ("added", _size), ("start", _size), ("end", _size)]


class _Kept(ctypes.Structure):
    _fields_ = [("start", _size), ("len", _size)]


class _Progress(ctypes.Structure):
    _fields_ = [("count", _size), ("next", _size)]


class _Buffer(ctypes.Structure):
    """A Py_buffer: where the bytes of an object lie, which is kept there until the buffer is released."""
    _fields_ = [("buf", ctypes.c_void_p), ("obj", ctypes.py_object), ("len", ctypes.c_ssize_t), ("itemsize", ctypes.c_ssize_t),
                ("readonly", ctypes.c_int), ("ndim", ctypes.c_int), ("format", ctypes.c_void_p), ("shape", ctypes.c_void_p),
                ("strides", ctypes.c_void_p), ("suboffsets", ctypes.c_void_p), ("internal", ctypes.c_void_p)]


_get_buffer = ctypes.pythonapi.PyObject_GetBuffer
_get_buffer.argtypes = [ctypes.py_object, ctypes.POINTER(_Buffer), ctypes.c_int]
_get_buffer.restype = ctypes.c_int
_release_buffer = ctypes.pythonapi.PyBuffer_Release
_release_buffer.argtypes = [ctypes.POINTER(_Buffer)]
_release_buffer.restype = None


def _loaded():
    """The library, with the types of its functions."""
    library = ctypes.CDLL(os.environ.get("ZORFELITH_LIBRARY", "libzorfelith.so.0"))
    handle, text, match, at = ctypes.POINTER(_Handle), [ctypes.POINTER(_Bytes), _size], ctypes.POINTER(_Match), ctypes.POINTER(_size)
    settings, chars, prepared = [ctypes.POINTER(_Settings), _size], [ctypes.c_char_p, _size], ctypes.POINTER(_Text)
    types = {
        "zf_version": [],
        "zf_compile": [handle, *text, *settings, ctypes.POINTER(_Refused)],
        "zf_explain": [*chars, *settings, ctypes.POINTER(_Fault), *chars],
        "zf_escape": [*chars, *chars, at],
        "zf_is_match": [handle, *text, _size, _size],
        "zf_find": [handle, *text, _size, _size, match],
        "zf_match_at": [handle, *text, _size, _size, match],
        "zf_find_last": [handle, *text, _size, _size, _size, match],
        "zf_find_partial": [handle, *text, _size, match, at],
        "zf_window_find": [handle, *text, ctypes.POINTER(_Window), at, _size, match],
        "zf_replace": [handle, *text, *chars, *chars, ctypes.POINTER(_Replaced)],
        "zf_replace_one": [handle, *text, _size, *chars, *chars, ctypes.POINTER(_Replacement)],
        "zf_find_groups": [handle, *text, _size, _size, match, ctypes.POINTER(_Group), _size],
        "zf_which_patterns": [handle, *text, _size, _size, ctypes.POINTER(ctypes.c_uint8), _size],
        "zf_restart": [handle, _size, ctypes.c_uint8],
        "zf_next": [handle, *text, _size, match, _size, ctypes.POINTER(_Progress)],
        "zf_share": [handle, handle],
        "zf_live_new": [handle, *text],
        "zf_live_edit": [handle, _size, _size, _size, *text, ctypes.POINTER(_Change)],
        "zf_live_free": [handle],
        "zf_live_len": [handle, at],
        "zf_live_get": [handle, _size, match],
        "zf_live_next": [handle, _size, match],
        "zf_live_previous": [handle, _size, match],
        "zf_live_window": [handle, _size, _size, match, _size, at],
        "zf_stream_new": [handle],
        "zf_stream_limit": [handle, _size],
        "zf_stream_feed": [handle, *chars],
        "zf_stream_next": [handle, match],
        "zf_stream_finish": [handle],
        "zf_stream_kept": [handle, *chars, ctypes.POINTER(_Kept)],
        "zf_stream_free": [handle],
        "zf_step_new": [handle, _size],
        "zf_step_start": [handle, _size],
        "zf_step_resume": [handle, *text, _size, match],
        "zf_step_position": [handle, at],
        "zf_step_free": [handle],
        "zf_text_new": [prepared, *text],
        "zf_text_edit": [prepared, _size, _size, *text],
        "zf_text_find": [handle, prepared, ctypes.POINTER(_Bounds), match],
        "zf_text_find_groups": [handle, prepared, _size, _size, match, ctypes.POINTER(_Group), _size],
        "zf_text_next": [handle, prepared, _size, match, _size, ctypes.POINTER(_Progress)],
        "zf_text_find_partial": [handle, prepared, _size, match, at],
        "zf_text_live_new": [handle, prepared],
        "zf_text_live_edit": [handle, _size, _size, _size, prepared, ctypes.POINTER(_Change)],
        "zf_pattern_count": [handle, at],
        "zf_group_count": [handle, _size, at],
        "zf_group_name": [handle, _size, _size, ctypes.c_char_p, _size, at],
        "zf_group_number": [handle, _size, ctypes.c_char_p, _size, at],
        "zf_memory": [handle, at],
        "zf_memory_parts": [handle, ctypes.POINTER(_Parts)],
    }
    for name, arguments in types.items():
        getattr(library, name).argtypes = arguments
        getattr(library, name).restype = ctypes.c_uint32
    for name, owner in (("zf_free", handle), ("zf_text_free", prepared)):
        getattr(library, name).argtypes = [owner]
        getattr(library, name).restype = None
    return library


_zf = _loaded()


class Error(ValueError):
    """Why there is no answer. `status` is that of zorfelith.h; `pattern` and `at` tell where a pattern is refused."""

    def __init__(self, status, pattern=0, at=0):
        super().__init__(_WORDS.get(status, "status {status}").format(status=status, pattern=pattern, at=at))
        self.status, self.pattern, self.at = status, pattern, at


def _told(status):
    """Whether a search found a match; raises if it gave no answer."""
    if status > _FOUND:
        raise Error(status)
    return status == _FOUND


class _Chunks:
    """The chunks of a text, held where they lie until it is dropped."""

    def __init__(self, text):
        self._buffers = []
        self.chunks = [text] if isinstance(text, (bytes, bytearray, memoryview)) else list(text)
        self.array = (_Bytes * max(len(self.chunks), 1))()
        self.count = len(self.chunks)
        self.ends = []
        self._none = ctypes.create_string_buffer(1)
        self.array[0].bytes = ctypes.addressof(self._none)
        total = 0
        for place, chunk in zip(self.array, self.chunks):
            buffer = _Buffer()
            _get_buffer(chunk, ctypes.byref(buffer), 0)  # raises where the chunk isn't bytes
            self._buffers.append(buffer)
            place.bytes = buffer.buf if buffer.len else ctypes.addressof(self._none)
            place.len = buffer.len
            total += buffer.len
            self.ends.append(total)

    def __del__(self):
        for buffer in self._buffers:
            _release_buffer(ctypes.byref(buffer))

    def copied(self, start, end):
        """The bytes from start to end."""
        low, high = 0, len(self.ends)
        while low < high:
            middle = (low + high) // 2
            low, high = (middle + 1, high) if self.ends[middle] <= start else (low, middle)
        out = []
        while start < end:
            begins = self.ends[low] - self.array[low].len
            stop = min(end, self.ends[low])
            out.append(ctypes.string_at(self.array[low].bytes + start - begins, stop - start))
            start, low = stop, low + 1
        return b"".join(out)


class _Read:
    """What is kept of a text that is read by parts: the chunks from `start` to `end`."""

    def __init__(self, read, start):
        self._read, self.start, self.end, self.chunks, self.is_last = read, start, start, [], 0
        self.more()

    def more(self):
        """Reads as much again as there is, at least a part."""
        wanted = self.end + max(self.end - self.start, 1)
        while self.end < wanted and not self.is_last:
            chunk = self._read(self.end)
            self.is_last = int(len(chunk) == 0)
            if not self.is_last:
                self.chunks.append(chunk)
                self.end += len(chunk)

    def drop(self, place):
        """Drops the chunks that end four bytes before the place, or earlier."""
        while self.chunks and self.start + len(self.chunks[0]) + 4 <= place:
            self.start += len(self.chunks.pop(0))


class _Owner(threading.local):
    """Of each thread the handles that other threads dropped."""

    def __init__(self):
        self.dropped = collections.deque()


_owner = _Owner()


Change = collections.namedtuple("Change", "first dropped added start end")
Change.__doc__ = """What an edit changed in a live list: the matches before `first` stay, `dropped` went from there on, `added` came in their place, and those
behind moved with the text. The bytes from `start` to `end` of the new text are to be drawn anew."""


class Match:
    """A match of a text. Groups are asked by number or name; group 0 is the whole match."""

    def __init__(self, regex, text, pattern, start, end, spans=None):
        self.re, self.pattern, self._text, self._span, self._spans = regex, pattern, text, (start, end), spans

    def __repr__(self):
        return f"<zorfelith.Match span={self._span} pattern={self.pattern}>"

    def _all(self):
        if self._spans is None:
            self._spans = self.re._groups(self._text, *self._span)[1]
        return self._spans

    def span(self, group=0):
        """Where a group matched, or (-1, -1) if it took no part."""
        if group == 0:
            return self._span
        number = self.re._number(self.pattern, group)
        spans = self._all()
        if not 0 <= number < len(spans):
            raise IndexError("no such group")
        return spans[number]

    def start(self, group=0):
        return self.span(group)[0]

    def end(self, group=0):
        return self.span(group)[1]

    def _bytes(self, span, default):
        return default if span[0] < 0 else self._text.copied(*span)

    def group(self, *groups):
        """The bytes of a group, or None if it took no part; of several groups a tuple."""
        found = tuple(self._bytes(self.span(group), None) for group in groups or (0,))
        return found if len(found) > 1 else found[0]

    __getitem__ = group

    def groups(self, default=None):
        """The bytes of all groups but the whole match."""
        return tuple(self._bytes(span, default) for span in self._all()[1:])

    def groupdict(self, default=None):
        """The bytes of the named groups, by name."""
        names = self.re.group_names(self.pattern)
        return {name: self._bytes(self._all()[number], default) for name, number in names.items()}


class _Apart:
    """A second handle of a Pattern's patterns, which keeps something of a text."""

    def __init__(self, of):
        self._own, self._handle = of._own, of._shared()

    def __del__(self):
        of = getattr(self, "_handle", None)
        if of is not None:
            of.free()

    def _call(self):
        self._own()
        return self._handle.handle


class Live(_Apart):
    """The list of all matches of a text, kept under edits of that text. Pattern.live makes it. Its matches are spans; it is a sequence of them."""

    def __init__(self, of, text):
        super().__init__(of)
        self.renew(text)

    def renew(self, text):
        """Makes the list anew, of this text."""
        if isinstance(text, Prepared):
            _told(_zf.zf_text_live_new(self._call(), text._text))
            return
        text = _Chunks(text)
        _told(_zf.zf_live_new(self._call(), text.array, text.count))

    def edit(self, start, end, inserted, text):
        """Keeps the list under an edit: the bytes from start to end were replaced by so many others, and the text is the whole text as it is now. It
        has to be the text of the call before but for that edit. Returns a Change. Out of memory the list is gone, until `renew`."""
        change = _Change()
        if isinstance(text, Prepared):
            _told(_zf.zf_text_live_edit(self._call(), start, end, inserted, text._text, change))
        else:
            text = _Chunks(text)
            _told(_zf.zf_live_edit(self._call(), start, end, inserted, text.array, text.count, change))
        return Change(*(getattr(change, name) for name in Change._fields))

    def __len__(self):
        count = _size()
        _told(_zf.zf_live_len(self._call(), count))
        return count.value

    def __getitem__(self, index):
        found = self._found(_zf.zf_live_get, index if index >= 0 else len(self) + index) if index >= -len(self) else None
        if found is None:
            raise IndexError("the list has no such match")
        return found

    def _found(self, call, place):
        found = _Match()
        return (found.start, found.end) if _told(call(self._call(), place, found)) else None

    def next(self, place):
        """The first match that begins at a place or later, or None."""
        return self._found(_zf.zf_live_next, place)

    def previous(self, place):
        """The last match that begins before a place, or None."""
        return self._found(_zf.zf_live_previous, place)

    def window(self, start, end, most=1024):
        """The first matches that touch the bytes from start to end, at most so many."""
        batch, count = (_Match * max(most, 1))(), _size()
        _told(_zf.zf_live_window(self._call(), start, end, batch, most, count))
        return [(it.start, it.end) for it in batch[:count.value]]


class Stream(_Apart):
    """A text that is still coming, as from a pipe. Pattern.stream makes it. Its matches are those of the whole text, as spans in it, and each comes
    once it is known that nothing that follows can change it."""

    def __init__(self, of, limit):
        super().__init__(of)
        _told(_zf.zf_stream_new(self._call()))
        if limit is not None:
            _told(_zf.zf_stream_limit(self._call(), limit))

    def _next(self):
        found, spans = _Match(), []
        while _told(_zf.zf_stream_next(self._call(), found)):
            spans.append((found.start, found.end))
        return spans

    def feed(self, chunk):
        """Takes the next bytes, and returns the matches that are settled by them. If it raises, nothing of them was taken."""
        chunk = bytes(chunk)
        _told(_zf.zf_stream_feed(self._call(), chunk, len(chunk)))
        return self._next()

    def finish(self):
        """Says that no more follows, and returns the matches that are left."""
        _told(_zf.zf_stream_finish(self._call()))
        return self._next()

    def kept(self):
        """Where the first byte that it keeps stands in the whole text, and the bytes from there on, up to the last that was fed."""
        kept = _Kept()
        _zf.zf_stream_kept(self._call(), b"", 0, kept)
        place = ctypes.create_string_buffer(max(kept.len, 1))
        _told(_zf.zf_stream_kept(self._call(), place, kept.len, kept))
        return kept.start, place.raw[:kept.len]


class Steps(_Apart):
    """A search of a text in slices, between which other work is done. Pattern.steps makes it. `found` is its match, a span, once it has ended."""

    def __init__(self, of, start):
        super().__init__(of)
        self.found = None
        _told(_zf.zf_step_new(self._call(), start))

    def start(self, start):
        """Begins another search from start on, in this or in another text."""
        self.found = None
        _told(_zf.zf_step_start(self._call(), start))

    def resume(self, text, budget=65536):
        """Searches about so many bytes more, and returns whether the search has ended. The text is the whole one each time, cut as you like."""
        text, found = _Chunks(text), _Match()
        status = _zf.zf_step_resume(self._call(), text.array, text.count, budget, found)
        if status == _MORE_AFTER:
            return False
        self.found = (found.start, found.end) if _told(status) else None
        return True

    @property
    def position(self):
        """How many bytes of the text were looked at, or where the search begins."""
        at = _size()
        _told(_zf.zf_step_position(self._call(), at))
        return at.value


class Prepared:
    """A text whose chunks keep their places: an edit replaces some of them, and a search counts none. A live list takes it as a text too. Its chunks may not change while they are in
    it: a bytearray can't be resized then. It is used by one thread at a time, with a Pattern of that thread."""

    def __init__(self, chunks):
        self._text, self._chunks = _Text(), [_Chunks([chunk]) for chunk in chunks]
        _told(_zf.zf_text_new(self._text, *self._array(self._chunks)))

    def __del__(self):
        if hasattr(self, "_text"):
            _zf.zf_text_free(self._text)

    @staticmethod
    def _array(chunks):
        return (_Bytes * max(len(chunks), 1))(*[it.array[0] for it in chunks] or [_Chunks(b"").array[0]]), len(chunks)

    def edit(self, start, end, chunks):
        """Replaces the chunks from the index start on and before the index end by others."""
        others = [_Chunks([chunk]) for chunk in chunks]
        _told(_zf.zf_text_edit(self._text, start, end, *self._array(others)))
        self._chunks[start:end] = others

    def search(self, pattern, start=0, end=None, anchored=False):
        """The number of the pattern and the span of the match from start to end, or None; if anchored, of the match that begins at start."""
        found, bounds = _Match(), _Bounds(start, _NONE if end is None else end, anchored)
        if not _told(_zf.zf_text_find(pattern._own(), self._text, bounds, found)):
            return None
        return found.pattern, (found.start, found.end)

    def groups(self, pattern, start=0, end=None):
        """The number of the pattern and the spans of all groups of the match from start to end, or None; (-1, -1) if a group took no part."""
        found, groups = _Match(), (_Group * max(pattern._most_groups(), 1))()
        if not _told(_zf.zf_text_find_groups(pattern._own(), self._text, start, _NONE if end is None else end, found, groups, len(groups))):
            return None
        count = pattern.group_count(found.pattern)
        return found.pattern, [(-1, -1) if it.start == _NONE else (it.start, it.end) for it in groups[:count]]

    def partial(self, pattern, start=0):
        """The number of the pattern and the span of the match of each text that goes on from this one, or else a place, an int."""
        found, at = _Match(), _size()
        if not _told(_zf.zf_text_find_partial(pattern._own(), self._text, start, found, at)):
            return at.value
        return found.pattern, (found.start, found.end)

    def spans(self, pattern, start=0, end=None):
        """The spans of the matches from start to end, from left to right. They are found in batches, each in the text as it is then."""
        batch, progress, follows, end = (_Match * _BATCH)(), _Progress(), 0, _NONE if end is None else end
        while True:
            handle = pattern._own()
            _told(_zf.zf_restart(handle, start, follows))
            _told(_zf.zf_text_next(handle, self._text, end, batch, _BATCH, progress))
            start, follows = progress.next, 1
            yield from [(it.start, it.end) for it in batch[:progress.count]]
            if progress.count < _BATCH:
                return


class _Owned:
    """A handle that is freed by its own thread, or by the next `compile` there."""

    def __init__(self):
        self.handle, self._dropped, self._thread = _Handle(), _owner.dropped, threading.get_ident()

    def free(self):
        if not self.handle.full:
            return
        if threading.get_ident() == self._thread:
            _zf.zf_free(self.handle)
        else:
            self._dropped.append(self.handle)


class Pattern:
    """Compiled patterns, with all that searches by them need."""

    def __init__(self, patterns, settings):
        while _owner.dropped:
            _zf.zf_free(ctypes.byref(_owner.dropped.popleft()))
        self._handle, self._dropped, self._thread = _Handle(), _owner.dropped, threading.get_ident()
        refused, texts = _Refused(), _Chunks(patterns)
        if _zf.zf_compile(self._handle, texts.array, texts.count, settings, ctypes.sizeof(settings), refused):
            raise Error(refused.status, refused.pattern, refused.at)

    def __del__(self):
        handle = getattr(self, "_handle", None)
        if handle is None or not handle.full:
            return
        if threading.get_ident() == self._thread:
            _zf.zf_free(handle)
        else:
            self._dropped.append(handle)

    def _own(self):
        """The handle, for a call by its own thread."""
        if threading.get_ident() != self._thread:
            raise RuntimeError("a Pattern is used by the thread that compiled it")
        return self._handle

    def _shared(self):
        """A second handle of the same patterns, which aren't compiled again."""
        owned = _Owned()
        _told(_zf.zf_share(self._own(), owned.handle))
        return owned

    def live(self, text):
        """The list of all matches of the text, which can be kept under edits."""
        return Live(self, text)

    def stream(self, limit=None):
        """A text that is still coming, of which nothing has come yet. It keeps at most `limit` bytes."""
        return Stream(self, limit)

    def steps(self, start=0):
        """A search in slices, from start on."""
        return Steps(self, start)

    def is_match(self, text, start=0, end=None):
        """Whether there is a match from start to end."""
        handle, text = self._own(), _Chunks(text)
        return _told(_zf.zf_is_match(handle, text.array, text.count, start, _NONE if end is None else end))

    def search(self, text, start=0, end=None):
        """The match from start to end, or None."""
        handle, text, found = self._own(), _Chunks(text), _Match()
        if not _told(_zf.zf_find(handle, text.array, text.count, start, _NONE if end is None else end, found)):
            return None
        return Match(self, text, found.pattern, found.start, found.end)

    def match(self, text, start=0, end=None):
        """The match that begins at start, or None."""
        handle, text, found = self._own(), _Chunks(text), _Match()
        if not _told(_zf.zf_match_at(handle, text.array, text.count, start, _NONE if end is None else end, found)):
            return None
        return Match(self, text, found.pattern, found.start, found.end)

    def last(self, text, place, start=0, end=None):
        """The last match that begins before the place, of those that `finditer` gives, or None."""
        handle, text, found = self._own(), _Chunks(text), _Match()
        if not _told(_zf.zf_find_last(handle, text.array, text.count, start, _NONE if end is None else end, place, found)):
            return None
        return Match(self, text, found.pattern, found.start, found.end)

    def partial(self, text, start=0):
        """What the beginning of a text tells of a search from start on: the Match of each text that goes on from it; or else a place, an int,
        before which no match of such a text begins."""
        handle, text, found, at = self._own(), _Chunks(text), _Match(), _size()
        if not _told(_zf.zf_find_partial(handle, text.array, text.count, start, found, at)):
            return at.value
        return Match(self, text, found.pattern, found.start, found.end)

    def spans(self, read, start=0, end=None):
        """The spans of the matches from start to end of a text that is read by parts, as from a rope or by pages: `read(place)` gives bytes of the
        text from that place on, as many as it likes, and none at the text's end. No more of it is kept than the search needs."""
        end, place, last = _NONE if end is None else end, start, None
        kept = _Read(read, max(start - 4, 0))
        while True:
            try:
                found = self._window(kept, place, end)
            except Error as fault:
                if fault.status == _OUTSIDE and place > start:
                    return
                raise
            if found is None:
                return
            if found == (last, last):
                place, last = place + 1, None
                continue
            yield found
            place = last = found[1]

    def _window(self, kept, place, end):
        """The span of the match from a place on, of a text that is read by parts, or None."""
        at, found = _size(place), _Match()
        while True:
            window = _Window(kept.start, kept.is_last)
            text = _Chunks(kept.chunks)
            status = _zf.zf_window_find(self._own(), text.array, text.count, window, at, end, found)
            if status == _MORE_AFTER:
                kept.drop(at.value)
                kept.more()
                continue
            if not _told(status):
                return None
            kept.drop(found.end)
            return found.start, found.end

    def replace_one(self, template, text, start=0):
        """The match from start on, and the bytes that a template, a str or bytes as in `subn`, puts in its place; or None."""
        template = template.encode() if isinstance(template, str) else bytes(template)
        handle, text, told, place = self._own(), _Chunks(text), _Replacement(), ctypes.create_string_buffer(1)
        while True:
            size = len(place) - 1
            status = _zf.zf_replace_one(handle, text.array, text.count, start, template, len(template), place, size, told)
            if status == _SYNTAX:
                raise ValueError(f"error parsing template at byte {told.at}")
            if status != _SHORT:
                found = told.found
                return (Match(self, text, found.pattern, found.start, found.end), place.raw[:told.len]) if _told(status) else None
            place = ctypes.create_string_buffer(told.len + 1)

    def replace(self, template, text):
        """The text as one bytes object with each match replaced by a template, a str or bytes as in `subn`, and how many were. The library makes
        it in one call."""
        template = template.encode() if isinstance(template, str) else bytes(template)
        handle, text, told, place = self._own(), _Chunks(text), _Replaced(), ctypes.create_string_buffer(1)
        while True:
            size = len(place) - 1
            status = _zf.zf_replace(handle, text.array, text.count, template, len(template), place, size, told)
            if status == _SYNTAX:
                raise ValueError(f"error parsing template at byte {told.at}")
            if status != _SHORT:
                _told(status)
                return place.raw[:told.len], told.count
            place = ctypes.create_string_buffer(told.len + 1)

    def which(self, text, start=0, end=None):
        """The numbers of the patterns that have a match from start to end."""
        handle, text, count = self._own(), _Chunks(text), self.pattern_count()
        marks = (ctypes.c_uint8 * max(count, 1))()
        _told(_zf.zf_which_patterns(handle, text.array, text.count, start, _NONE if end is None else end, marks, count))
        return [number for number in range(count) if marks[number]]

    def finditer(self, text, start=0, end=None):
        """The matches from start to end, from left to right. They are found in batches; other calls may be made between two matches."""
        handle, text, end, follows = self._own(), _Chunks(text), _NONE if end is None else end, 0
        return self._batches(handle, text, start, end, follows)

    def _batches(self, handle, text, start, end, follows):
        batch, progress = (_Match * _BATCH)(), _Progress()
        while True:
            self._own()
            _told(_zf.zf_restart(handle, start, follows))
            _told(_zf.zf_next(handle, text.array, text.count, end, batch, _BATCH, progress))
            found = [(it.pattern, it.start, it.end) for it in batch[:progress.count]]
            start, follows = progress.next, 1
            for it in found:
                yield Match(self, text, *it)
            if len(found) < _BATCH:
                return

    def findall(self, text, start=0, end=None):
        """The bytes of each match from start to end."""
        return [found.group() for found in self.finditer(text, start, end)]

    def subn(self, template, text, count=0):
        """The text as one bytes object with each match replaced, and how many were; of the first `count` alone if it isn't 0.

        A template is a function from a match to bytes, or bytes in which `${1}` and `${name}` are the bytes of a group, or none if it took no
        part or the pattern doesn't have it, and `$$` is a `$`. Any other `$` raises ValueError.
        """
        made = template if callable(template) else _filler(template)
        text, out, done, at = _Chunks(text), [], 0, 0
        for found in self._batches(self._own(), text, 0, _NONE, 0):
            out += [text.copied(at, found.start()), made(found)]
            at, done = found.end(), done + 1
            if done == count:
                break
        out.append(text.copied(at, text.ends[-1] if text.ends else 0))
        return b"".join(out), done

    def sub(self, template, text, count=0):
        """The text as one bytes object with each match replaced, as by `subn`."""
        return self.subn(template, text, count)[0]

    def pattern_count(self):
        """How many patterns there are."""
        count = _size()
        _told(_zf.zf_pattern_count(self._own(), count))
        return count.value

    def group_count(self, pattern=0):
        """How many groups a pattern has, the whole match among them; 0 if there is no such pattern."""
        count = _size()
        status = _zf.zf_group_count(self._own(), pattern, count)
        return 0 if status == _ABSENT else (_told(status), count.value)[1]

    def group_names(self, pattern=0):
        """The numbers of the named groups of a pattern, by name."""
        names, handle, length = {}, self._own(), _size()
        for number in range(self.group_count(pattern)):
            name = ctypes.create_string_buffer(1)
            status = _zf.zf_group_name(handle, pattern, number, name, 0, length)
            if status == _SHORT:
                name = ctypes.create_string_buffer(length.value)
                _told(_zf.zf_group_name(handle, pattern, number, name, length.value, length))
                names.setdefault(name.raw.decode(), number)
            elif status != _ABSENT:
                _told(status)
        return names

    def memory(self):
        """About how many bytes the patterns and their cache take."""
        count = _size()
        _told(_zf.zf_memory(self._own(), count))
        return count.value

    def memory_parts(self):
        """About how many bytes the patterns take, and how many their cache."""
        parts = _Parts()
        _told(_zf.zf_memory_parts(self._own(), parts))
        return parts.patterns, parts.cache

    def _number(self, pattern, group):
        """The number of a group that is named or numbered."""
        if isinstance(group, int):
            return group
        name, number = group.encode(), _size()
        status = _zf.zf_group_number(self._own(), pattern, name, len(name), number)
        if status == _ABSENT:
            raise IndexError("no such group")
        _told(status)
        return number.value

    def _most_groups(self):
        """How many groups a pattern has at most."""
        return max([self.group_count(pattern) for pattern in range(self.pattern_count())], default=0)

    def _groups(self, text, start, end):
        """The pattern and the spans of all groups of the match in that range, or None if there is none."""
        handle, found, most = self._own(), _Match(), self._most_groups()
        groups = (_Group * max(most, 1))()
        if not _told(_zf.zf_find_groups(handle, text.array, text.count, start, end, found, groups, most)):
            raise ValueError("the text was changed")
        count = self.group_count(found.pattern)
        return found.pattern, [(-1, -1) if it.start == _NONE else (it.start, it.end) for it in groups[:count]]


def _parts(template):
    """The parts of a template: bytes as they are, and of groups the numbers and names."""
    at = 0
    while at < len(template):
        sign = template.find(b"$", at)
        if sign < 0:
            yield template[at:]
            return
        yield template[at:sign]
        closing = template.find(b"}", sign)
        word = template[sign + 2:closing] if template[sign + 1:sign + 2] == b"{" and closing > 0 else b""
        if template[sign + 1:sign + 2] == b"$":
            yield b"$"
            at = sign + 2
        elif word.isdigit():
            yield int(word)
            at = closing + 1
        elif _is_name(word):
            yield word.decode()
            at = closing + 1
        else:
            raise ValueError(f"error parsing template at byte {sign}")


def _is_name(word):
    return re.fullmatch(rb"[A-Za-z_][A-Za-z0-9_.\[\]]*", word) is not None


def _filler(template):
    """The function that fills a template's groups in."""
    parts = list(_parts(bytes(template)))

    def filled(found):
        out = []
        for part in parts:
            if not isinstance(part, bytes):
                try:
                    part = found.group(part) or b""
                except IndexError:
                    part = b""
            out.append(part)
        return b"".join(out)

    return filled


def _settings(kind, flags):
    """The structure of settings for these names."""
    unknown = sorted(set(flags) - {*_FLAGS, *_LIMITS, *_GRAMMAR})
    if unknown:
        raise TypeError(f"no flag {unknown[0]}")
    return _Settings(kind=kind, **{name: value if name in _LIMITS else bool(value) for name, value in flags.items()})


def _encoded(pattern):
    return pattern.encode("utf-8", "surrogatepass") if isinstance(pattern, str) else pattern


def compile(patterns, *, kind=LEFTMOST_FIRST, **flags):
    """Compiles a pattern, or a list of patterns: each a str or bytes of UTF-8.

    `kind` is LEFTMOST_FIRST, LEFTMOST_LONGEST or ALL. The flags, all off, are case_insensitive, multi_line, dot_matches_new_line, crlf,
    swap_greed, bytes, any_bytes, split_characters and full, and the limits size_limit and cache_capacity: zorfelith.h says what each does.
    """
    texts = [patterns] if isinstance(patterns, (str, bytes)) else list(patterns)
    return Pattern([_encoded(it) for it in texts], _settings(kind, flags))


# What is wrong with a pattern: the part of it in bytes, and a line that says what.
Fault = collections.namedtuple("Fault", "start end words")


def explain(pattern, **flags):
    """What is wrong with the text of a pattern, as a Fault, or None if it is read as one."""
    text, settings, fault, words = _encoded(pattern), _settings(LEFTMOST_FIRST, flags), _Fault(), ctypes.create_string_buffer(64)
    while True:
        status = _zf.zf_explain(text, len(text), settings, ctypes.sizeof(settings), fault, words, len(words))
        if status != _SHORT:
            return Fault(fault.start, fault.end, words.raw[:fault.len].decode()) if _told(status) else None
        words = ctypes.create_string_buffer(fault.len)


def escape(text):
    """The pattern, a str, that matches a text and nothing else. The text is a str or bytes of UTF-8."""
    text, length = _encoded(text), _size()
    place = ctypes.create_string_buffer(2 * len(text) + 1)
    _told(_zf.zf_escape(text, len(text), place, len(place), length))
    return place.raw[:length.value].decode()


def version():
    """The version of the library, as a tuple of three numbers."""
    number = _zf.zf_version()
    return number // 1000000, number // 1000 % 1000, number % 1000
