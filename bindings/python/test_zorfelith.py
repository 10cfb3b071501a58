"""Tests of the Python binding, over the library that ZORFELITH_LIBRARY names: python3 -m unittest, in this folder."""
import ctypes
import gc
import pathlib
import random
import re
import threading
import unittest

import zorfelith

DATES = r"(?P<year>\d{4})-(\d{2})"


class Searches(unittest.TestCase):
    def test_first_program(self):
        found = list(zorfelith.compile(DATES).finditer([b"see 20", b"26-11, 2027", b"-01"]))
        self.assertEqual([it.span() for it in found], [(4, 11), (13, 20)])
        self.assertEqual([it.group("year") for it in found], [b"2026", b"2027"])
        self.assertEqual(found[1].groups(), (b"2027", b"01"))
        self.assertEqual(found[1].groupdict(), {"year": b"2027"})
        self.assertEqual(found[0].group(0, 2), (b"2026-11", b"11"))
        self.assertEqual((found[0].start(2), found[0].end("year")), (9, 8))

    def test_each_cutting_gives_the_same(self):
        text, words = b"one two  three, four", zorfelith.compile("[a-z]+")
        wanted = [(0, 3), (4, 7), (9, 14), (16, 20)]
        for length in range(1, len(text) + 1):
            chunks = [text[i:i + length] for i in range(0, len(text), length)]
            self.assertEqual([it.span() for it in words.finditer(chunks)], wanted)
            self.assertEqual(words.search(chunks, 5).span(), (5, 7))

    def test_windows_give_the_same(self):
        text = "one, zwölf\n  tree tree, 12 naïve x".encode() * 20
        for pattern in ("[a-z]+", r"\b", "", "(?m)^|e*", "x$", r"(?s)n.*x", "nowhere", r"\b\w+\b"):
            regex = zorfelith.compile(pattern)
            for length in (1, 3, 50, 4096):
                for start, end in ((0, None), (7, None), (5, 100), (len(text), None)):
                    reads = []

                    def read(place):
                        reads.append(place)
                        return text[place:place + length]

                    wanted = [it.span() for it in regex.finditer(text, start, end)]
                    self.assertEqual(list(regex.spans(read, start, end)), wanted)
                    self.assertEqual(sorted(set(reads)), reads)
        with self.assertRaises(zorfelith.Error):
            list(zorfelith.compile("a").spans(lambda place: b"", 1))

    def test_replace_one(self):
        dates = zorfelith.compile(DATES)
        text = [b"see 20", b"26-11, 2027", b"-01"]
        found, bytes_put = dates.replace_one("${2}/${year}", text, 5)
        self.assertEqual((found.span(), bytes_put), ((13, 20), b"01/2027"))
        self.assertIsNone(dates.replace_one("${2}", text, 14))
        with self.assertRaises(ValueError):
            dates.replace_one("$", text)

    def test_more_matches_than_a_batch(self):
        letters = zorfelith.compile("x*")
        text = [b"ax"] * 1000
        wanted = [(0, 0)] + [(2 * i + 1, 2 * i + 2) for i in range(1000)]
        self.assertEqual([it.span() for it in letters.finditer(text)], wanted)
        self.assertEqual(letters.findall(text)[-1], b"x")

    def test_loops_beside_one_another(self):
        digits = zorfelith.compile("[0-9]")
        text = [b"1 2 3", b" 4"]
        pairs = [(a.start(), b.start()) for a in digits.finditer(text) for b in digits.finditer(text, a.end())]
        self.assertEqual(pairs, [(0, 2), (0, 4), (0, 6), (2, 4), (2, 6), (4, 6)])

    def test_kinds_of_chunks(self):
        buffer, view = bytearray(b"ab12"), memoryview(b"xx34")[1:]
        digits = zorfelith.compile("[0-9]+")
        self.assertEqual(digits.findall([buffer, b"", bytearray(), view]), [b"12", b"34"])
        self.assertEqual(digits.findall(b"a1"), [b"1"])
        self.assertEqual(digits.findall(buffer), [b"12"])
        self.assertEqual(digits.findall(chunk for chunk in (b"1", b"2")), [b"12"])
        self.assertEqual(digits.findall([]), [])
        iterator = digits.finditer(buffer)
        next(iterator)
        with self.assertRaises(BufferError):
            buffer.append(1)
        del iterator
        gc.collect()
        buffer.append(1)

    def test_what_is_no_bytes(self):
        digits = zorfelith.compile("[0-9]+")
        for text in (["12"], [b"1", 2], [None]):
            with self.assertRaises((TypeError, BufferError)):
                digits.findall(text)

    def test_ranges(self):
        digits = zorfelith.compile("[0-9]+")
        self.assertEqual(digits.search([b"12", b"34"], 1, 3).span(), (1, 3))
        self.assertIsNone(digits.search(b"12", 2))
        self.assertTrue(digits.is_match(b"a1") and not digits.is_match(b"a1", 0, 1))
        for call in (digits.search, digits.is_match, digits.which, digits.findall):
            with self.assertRaises(zorfelith.Error) as raised:
                call(b"12", 3)
            self.assertEqual(raised.exception.status, 4)

    def test_many_patterns(self):
        rules = zorfelith.compile(["due", b"paid", "[0-9]+"])
        self.assertEqual(rules.which([b"du", b"e 7"]), [0, 2])
        self.assertEqual([(it.pattern, it.group()) for it in rules.finditer(b"7 paid")], [(2, b"7"), (1, b"paid")])
        self.assertEqual(rules.pattern_count(), 3)
        self.assertEqual(zorfelith.compile([]).which(b"a"), [])

    def test_groups_that_took_no_part(self):
        found = zorfelith.compile("(a)|(b)").search(b"b")
        self.assertEqual((found.span(1), found.group(1), found.groups(b"")), ((-1, -1), None, (b"", b"b")))
        for group in (3, -1, "x"):
            with self.assertRaises(IndexError):
                found.group(group)


LONGEST, ALL = {"kind": zorfelith.LEFTMOST_LONGEST}, {"kind": zorfelith.ALL}
ANY_BYTES = {"any_bytes": True}

# Lists under edits: a pattern, its options, a text, its matches; and edits one after the other, each with a start, an end, the bytes that
# come between them, and the matches then. All are taken from the definitions.
LIST_ROWS = [
    # A match comes only once its last byte does.
    ("abc", {}, b"xxab", [], (4, 4, b"c", [(2, 5)]), (4, 5, b"", []), (0, 2, b"", []), (2, 2, b"c", [(0, 3)])),
    # Empty matches: one gives way to the match that is now there, or to one that now ends there.
    ("x*", {}, b"aax", [(0, 0), (1, 1), (2, 3)], (1, 1, b"x", [(0, 0), (1, 2), (3, 4)]), (1, 2, b"", [(0, 0), (1, 1), (2, 3)])),
    ("a|", {}, b"ba", [(0, 0), (1, 2)], (0, 1, b"", [(0, 1)]), (0, 0, b"b", [(0, 0), (1, 2)]), (1, 2, b"", [(0, 0), (1, 1)])),
    ("", {}, b"ab", [(0, 0), (1, 1), (2, 2)], (1, 1, b"cd", [(0, 0), (1, 1), (2, 2), (3, 3), (4, 4)]), (0, 4, b"", [(0, 0)])),
    # Matches inside a character are passed over, also in one that an edit makes or breaks.
    ("", {}, b"\xc3\xa9", [(0, 0), (2, 2)], (1, 2, b"\xa8", [(0, 0), (2, 2)]), (1, 1, b"a", [(0, 0), (1, 1), (3, 3)]),
     (1, 2, b"", [(0, 0), (2, 2)])),
    ("b*", {}, b"a\xc3\xa9b", [(0, 0), (1, 1), (3, 4)], (2, 2, b"b", [(0, 0), (1, 1), (4, 5)]), (2, 3, b"", [(0, 0), (1, 1), (3, 4)])),
    # Edits inside a character.
    ("\u00e9", {}, b"\xc3\xa9\xc3\xa9", [(0, 2), (2, 4)], (1, 2, b"\xa8", [(2, 4)]), (3, 4, b"", []), (1, 2, b"\xa9", [(0, 2)])),
    (".", {}, b"\xc3\xa9", [(0, 2)], (1, 1, b"\xa8", [(0, 2)]), (2, 3, b"", [(0, 2)]), (0, 1, b"", [])),
    # Whatever follows counts, as long as an earlier branch goes on.
    ("(?s).*x|a", {}, b"aab", [(0, 1), (1, 2)], (3, 3, b"x", [(0, 4)]), (3, 4, b"", [(0, 1), (1, 2)])),
    # Matches behind an edit move.
    ("ab", {}, b"ab--ab--ab", [(0, 2), (4, 6), (8, 10)], (4, 6, b"xyz", [(0, 2), (9, 11)]), (4, 7, b"", [(0, 2), (6, 8)]),
     (0, 1, b"", [(5, 7)])),
    # An assertion looks four bytes back: behind the letter U+10400 there is the end of a word. No character ends there once it is broken.
    (r"\b-", {}, b"\xf0\x90\x90\x80-", [(4, 5)], (0, 1, b"A", []), (0, 1, b"\xf0", [(4, 5)])),
    (r"\b", {}, b"ab cd", [(0, 0), (2, 2), (3, 3), (5, 5)], (2, 3, b"", [(0, 0), (4, 4)]), (4, 4, b" ", [(0, 0), (4, 4)])),
    # Edits at the start and at the end, and of everything.
    ("a+", {}, b"aa", [(0, 2)], (0, 0, b"a", [(0, 3)]), (3, 3, b"b", [(0, 3)]), (4, 4, b"a", [(0, 3), (4, 5)]), (0, 5, b"", [])),
    ("a*", {}, b"aab", [(0, 2), (3, 3)], (0, 3, b"", [(0, 0)]), (0, 0, b"ba", [(0, 0), (1, 2)]), (0, 2, b"ab", [(0, 1), (2, 2)])),
    ("^", {}, b"ab", [(0, 0)], (0, 0, b"c", [(0, 0)]), (0, 3, b"", [(0, 0)])),
    ("$", {}, b"ab", [(2, 2)], (2, 2, b"c", [(3, 3)]), (0, 1, b"", [(2, 2)]), (0, 2, b"", [(0, 0)])),
    ("(?m)$", {}, b"a\nb", [(1, 1), (3, 3)], (0, 0, b"\n", [(0, 0), (2, 2), (4, 4)]), (2, 3, b"", [(0, 0), (3, 3)])),
    # A quote turns all strings behind it round.
    ('"[^"]*"', {}, b'"a" "b"', [(0, 3), (4, 7)], (1, 1, b'"', [(0, 2), (3, 6)]), (1, 2, b"", [(0, 3), (4, 7)]), (0, 1, b"", [(1, 4)])),
    # The other kinds of match.
    ("a|ab", LONGEST, b"ab", [(0, 2)], (1, 2, b"c", [(0, 1)]), (1, 1, b"b", [(0, 2)])),
    ("a+", ALL, b"baab", [(1, 3)], (4, 4, b"a", [(4, 5)]), (0, 5, b"", [])),
    # Bytes that are no characters.
    (r"(?-u:\xff)", ANY_BYTES, b"\xff", [(0, 1)], (0, 0, b"\xc3", [(1, 2)]), (2, 2, b"\xff", [(1, 2), (2, 3)]), (1, 3, b"", [])),
]


class Lists(unittest.TestCase):
    def test_a_list_under_random_edits(self):
        rolls = random.Random(7)
        for pattern in ("a+b?", "a*", r"b\b"):
            regex, text = zorfelith.compile(pattern), b""
            live = regex.live(text)
            for _ in range(200):
                start = rolls.randint(0, len(text))
                end = min(len(text), start + rolls.randint(0, 4))
                new = bytes(rolls.choices(b"ab ", k=rolls.randint(0, 5)))
                text = text[:start] + new + text[end:]
                cut = rolls.randint(0, len(text))
                change = live.edit(start, end, len(new), [text[:cut], text[cut:]])
                spans = [it.span() for it in regex.finditer(text)]
                self.assertEqual(list(live), spans)
                self.assertTrue(change.start <= start and start + len(new) <= change.end)
                place = rolls.randint(0, len(text))
                self.assertEqual(live.next(place), next((it for it in spans if it[0] >= place), None))
                self.assertEqual(live.previous(place), next((it for it in reversed(spans) if it[0] < place), None))
                low, high = sorted((place, rolls.randint(0, len(text))))
                touch = [it for it in spans if low <= it[0] and it[1] <= high or low < it[1] and it[0] < high]
                self.assertEqual(live.window(low, high), touch)
                self.assertEqual(live.window(low, high, 1), touch[:1])

    def test_rows(self):
        for patterns, options, text, first, *edits in LIST_ROWS:
            regex = zorfelith.compile(patterns, **options)
            live = regex.live(text)
            self.assertEqual(list(live), first, (patterns, text))
            for start, end, new, wanted in edits:
                text = text[:start] + new + text[end:]
                live.edit(start, end, len(new), text)
                self.assertEqual(list(live), wanted, (patterns, text))
                self.assertEqual([it.span() for it in regex.finditer(text)], wanted, (patterns, text))

    def test_what_is_refused(self):
        live = zorfelith.compile("a").live([b"ban", b"ana"])
        self.assertEqual((len(live), live[-1], list(live)), (3, (5, 6), [(1, 2), (3, 4), (5, 6)]))
        for edit, status in (((6, 7, 1), 4), ((3, 2, 1), 4), ((3, 3, 2), 14)):
            with self.assertRaises(zorfelith.Error) as raised:
                live.edit(*edit, b"bandana")
            self.assertEqual(raised.exception.status, status)
        for index in (3, -4):
            with self.assertRaises(IndexError):
                live[index]
        live.edit(3, 3, 1, b"bandana")
        self.assertEqual(list(live), [(1, 2), (4, 5), (6, 7)])
        live.renew(b"xa")
        self.assertEqual(list(live), [(1, 2)])


class Streams(unittest.TestCase):
    def test_a_stream_gives_the_matches_of_the_whole_text(self):
        text = b"user=7 id=1234 user=88\n"
        for pattern in (r"[a-z]+=\d+", r"\d\b", "x*", "nowhere"):
            regex = zorfelith.compile(pattern)
            wanted = [it.span() for it in regex.finditer(text)]
            for size in range(1, len(text) + 1):
                stream, told = regex.stream(), []
                for at in range(0, len(text), size):
                    told += stream.feed(text[at:at + size])
                    start, kept = stream.kept()
                    self.assertEqual(kept, text[start:at + size])
                    self.assertEqual(told, wanted[:len(told)])
                self.assertEqual(told + stream.finish(), wanted)

    def test_what_a_stream_refuses(self):
        stream = zorfelith.compile("a+b").stream(limit=4)
        self.assertEqual(stream.feed(b"xaa"), [])
        with self.assertRaises(zorfelith.Error) as raised:
            stream.feed(b"aab")
        self.assertEqual((raised.exception.status, stream.kept()), (19, (0, b"xaa")))
        self.assertEqual(stream.feed(b"b") + stream.finish(), [(1, 4)])
        with self.assertRaises(zorfelith.Error) as raised:
            stream.feed(b"b")
        self.assertEqual(raised.exception.status, 18)

    def test_steps(self):
        text = b"user=7 id=1234 user=88\n"
        regex = zorfelith.compile(r"[a-z]+=\d+")
        steps = regex.steps()
        for start, wanted in ((0, (0, 6)), (8, (8, 14)), (14, (15, 22)), (22, None)):
            for budget in range(1, len(text) + 2):
                steps.start(start)
                self.assertEqual(steps.position, start)
                cut = budget % len(text)
                for slices in range(len(text) + 1):
                    before = steps.position
                    if steps.resume([text[:cut], text[cut:]], budget):
                        break
                    self.assertTrue(before + budget <= steps.position < len(text))
                self.assertEqual((steps.found, slices < len(text)), (wanted, True))


class PreparedTexts(unittest.TestCase):
    def test_a_text_under_random_edits(self):
        rolls = random.Random(5)
        pattern = zorfelith.compile(r"(?P<word>[ab]+)(c)?|\b$|\u{e9}")
        chunks = []
        text = zorfelith.Prepared(chunks)
        live = pattern.live(text)
        for _ in range(200):
            start = rolls.randint(0, len(chunks))
            end = min(len(chunks), start + rolls.randint(0, 3))
            new = [b"".join(rolls.choices([b"a", b"b", b"c", b" ", b"\xc3", b"\xa9"], k=rolls.randint(0, 4))) for _ in range(rolls.randint(0, 4))]
            text.edit(start, end, new)
            at, gone = sum(map(len, chunks[:start])), sum(map(len, chunks[start:end]))
            live.edit(at, at + gone, sum(map(len, new)), text)
            chunks[start:end] = new
            self.assertEqual(list(live), [it.span() for it in pattern.finditer(chunks)])
            place = rolls.randint(0, sum(map(len, chunks)))
            found = pattern.search(chunks, place)
            self.assertEqual(text.search(pattern, place), found and (found.pattern, found.span()))
            self.assertEqual(text.groups(pattern, place), found and (found.pattern, [found.span(), *(found.span(i + 1) for i in range(2))]))
            found = pattern.match(chunks, place)
            self.assertEqual(text.search(pattern, place, anchored=True), found and (found.pattern, found.span()))
            found = pattern.partial(chunks, place)
            self.assertEqual(text.partial(pattern, place), found if isinstance(found, int) else (found.pattern, found.span()))
            self.assertEqual(list(text.spans(pattern, place)), [it.span() for it in pattern.finditer(chunks, place)])

    def test_what_is_refused(self):
        text, pattern = zorfelith.Prepared([b"ab", b"c"]), zorfelith.compile("b")
        for start, end in ((2, 1), (0, 3), (3, 3)):
            with self.assertRaises(zorfelith.Error) as told:
                text.edit(start, end, [b"x"])
            self.assertEqual(told.exception.status, 4)
        with self.assertRaises(zorfelith.Error):
            text.search(pattern, 4)
        self.assertEqual(text.search(pattern), (0, (1, 2)))


class Layouts(unittest.TestCase):
    def test_structs_lie_as_the_list_says(self):
        listed = (pathlib.Path(__file__).resolve().parents[2] / "include/zorfelith.abi").read_text()
        for name, size, alignment in re.findall(r"^struct zf_(\w+): size (\d+), alignment (\d+)$", listed, re.M):
            struct = getattr(zorfelith, "_" + name.capitalize())
            self.assertEqual((name, ctypes.sizeof(struct), ctypes.alignment(struct)), (name, int(size), int(alignment)))
            fields = [(it, getattr(struct, it).offset, getattr(struct, it).size) for it, _ in struct._fields_]
            wanted = re.findall(rf"^field zf_{name}\.(\w+): offset (\d+), size (\d+)$", listed, re.M)
            self.assertEqual(fields, [(it, int(offset), int(size)) for it, offset, size in wanted])

    def test_functions_have_the_listed_number_of_arguments(self):
        listed = (pathlib.Path(__file__).resolve().parents[2] / "include/zorfelith.abi").read_text()
        for name, arguments in re.findall(r"^function \w+ (zf_\w+)\((.*)\)$", listed, re.M):
            count = arguments.count(",") + 1 if arguments not in ("", "void") else 0
            self.assertEqual((name, len(getattr(zorfelith._zf, name).argtypes)), (name, count))


class Replacing(unittest.TestCase):
    def test_templates(self):
        rows = [
            (r"(\d+)-(\d+)", b"${2}-${1}", [b"a12-3", b"4b5-6"], b"a34-12b6-5", 2),
            ("x*", b"-", [b"ab"], b"-a-b-", 3),
            ("(a)|(b)", b"<${1}>", [b"a", b"b"], b"<a><>", 2),
            ("a", b"$$${0}${9}", [b"a"], b"$a", 1),
            ("a", b"", [b"bab"], b"bb", 1),
            (r"(?P<y>\d+)-(?P<m>\d+)", b"${m}/${y}", [b"on 2026-", b"11"], b"on 11/2026", 1),
            ("a", b"b", [], b"", 0),
        ]
        for pattern, template, text, wanted, count in rows:
            self.assertEqual(zorfelith.compile(pattern).subn(template, text), (wanted, count))

    def test_refused_templates(self):
        letter = zorfelith.compile("a")
        for template, at in ((b"$", 0), (b"a${x", 1), (b"${}", 0), (b"${1a}", 0), (b"${+1}", 0), (b"${a b}", 0), (b"$$$", 2)):
            with self.assertRaisesRegex(ValueError, f"at byte {at}"):
                letter.sub(template, b"a")

    def test_functions_and_counts(self):
        digits = zorfelith.compile(r"\d")
        self.assertEqual(digits.sub(lambda it: b"<%d>" % (int(it.group()) + 1), [b"1", b"x2"]), b"<2>x<3>")
        self.assertEqual(digits.subn(b".", b"12345", 3), (b"...45", 3))


class Places(unittest.TestCase):
    def test_match_and_last(self):
        dates, text = zorfelith.compile(r"\d{4}-\d\d"), [b"due 20", b"26-11, paid 2027", b"-01"]
        self.assertEqual(dates.match(text, 18).span(), (18, 25))
        self.assertIsNone(dates.match(text, 3))
        self.assertEqual([dates.last(text, place) and dates.last(text, place).span() for place in (4, 5, 18, 19)],
                         [None, (4, 11), (4, 11), (18, 25)])

    def test_partial(self):
        dates, text = zorfelith.compile(r"\d{4}-\d\d"), [b"due 20", b"26-11, paid 2027"]
        self.assertEqual(dates.partial(text).span(), (4, 11))
        self.assertEqual(dates.partial(text, 11), 18)

    def test_replace(self):
        dates = zorfelith.compile(r"(?P<y>\d+)-(\d+)")
        self.assertEqual(dates.replace("${2}/${y}$$", [b"on 2026-", b"11"]), (b"on 11/2026$", 1))
        self.assertEqual(dates.replace(b"", []), (b"", 0))
        with self.assertRaisesRegex(ValueError, "at byte 1"):
            dates.replace("a${", b"a")


class Patterns(unittest.TestCase):
    def test_explain(self):
        self.assertEqual(zorfelith.explain("a(b"), (1, 2, "unclosed group"))
        self.assertIsNone(zorfelith.explain("a(b)"))

    def test_escape(self):
        text = "".join(map(chr, range(128)))
        pattern = zorfelith.escape(text)
        self.assertEqual(zorfelith.compile(pattern).search(text.encode()).span(), (0, 128))
        self.assertIsNone(zorfelith.compile(zorfelith.escape("a.c")).search(b"abc"))

    def test_limits(self):
        rules = [rf"word{number}\s+\w+" for number in range(500)]
        with self.assertRaises(zorfelith.Error) as raised:
            zorfelith.compile(rules)
        self.assertEqual(raised.exception.status, 9)
        held = zorfelith.compile(rules, size_limit=1 << 30, cache_capacity=1 << 24)
        self.assertEqual(held.search(b"word7  ab").span(), (0, 9))
        self.assertEqual(sum(held.memory_parts()), held.memory())

    def test_version(self):
        self.assertEqual(len(zorfelith.version()), 3)


class Refusals(unittest.TestCase):
    def test_patterns(self):
        for pattern, status in (("(", 8), (b"\xff", 7)):
            with self.assertRaises(zorfelith.Error) as raised:
                zorfelith.compile(["a", pattern])
            self.assertEqual((raised.exception.status, raised.exception.pattern), (status, 1))
        with self.assertRaises(zorfelith.Error) as raised:
            zorfelith.compile("a", kind=3)
        self.assertEqual(raised.exception.status, 11)
        with self.assertRaises(TypeError):
            zorfelith.compile("a", verbose=True)

    def test_threads(self):
        mine, seen = zorfelith.compile("a"), []

        def other():
            try:
                mine.search(b"a")
            except RuntimeError:
                seen.append(zorfelith.compile("b").search(b"ab").span())

        threads = [threading.Thread(target=other) for _ in range(4)]
        for it in threads:
            it.start()
        for it in threads:
            it.join()
        self.assertEqual(seen, [(1, 2)] * 4)
        self.assertEqual(mine.search(b"ba").span(), (1, 2))

    def test_dropped_by_another_thread(self):
        held = [zorfelith.compile("a")]
        dropped = held[0]._dropped
        other = threading.Thread(target=held.clear)
        other.start()
        other.join()
        self.assertEqual(len(dropped), 1)
        zorfelith.compile("b")
        self.assertEqual(len(dropped), 0)


if __name__ == "__main__":
    unittest.main()
