"""Answers the requests that bindings/c/answers.c tells of, by the Python binding."""
import sys

import zorfelith

FLAGS = ("case_insensitive", "multi_line", "dot_matches_new_line", "crlf", "swap_greed", "bytes", "any_bytes", "split_characters", "kind", "full")


def bytes_of(word):
    return b"" if word == "-" else bytes.fromhex(word)


def shown(found):
    return f"{found.pattern}:{found.start()}-{found.end()}"


def groups_shown(found):
    spans = [found.span(group) for group in range(found.re.group_count(found.pattern))]
    return f"status 1 {shown(found)} of {len(spans)} " + " ".join("." if it[0] < 0 else f"{it[0]}-{it[1]}" for it in spans)


def answer(kind, regex, text, start, end):
    if kind == "a":
        return " ".join(["all", *(shown(found) for found in regex.finditer(text, start, end))])
    if kind == "m":
        return f"status {int(regex.is_match(text, start, end))}"
    if kind == "w":
        return " ".join(["which", *map(str, regex.which(text, start, end))])
    found = regex.search(text, start, end)
    if found is None:
        return "status 0"
    return groups_shown(found) if kind == "g" else f"status 1 {shown(found)}"


def answered(line):
    kind, flags, cut, _, start, end, count, *words = line.split()
    count, cut, text = int(count), int(cut), bytes_of(words[-1])
    chunks = [text] if cut == 0 else [text[i:i + cut] for i in range(0, len(text), cut)]
    settings = {name: int(flag) for name, flag in zip(FLAGS, flags)}
    try:
        regex = zorfelith.compile([bytes_of(it) for it in words[:count]], **settings)
    except zorfelith.Error as refused:
        return f"refused {refused.status} {refused.pattern} {refused.at}"
    if kind == "r":
        return "compiled"
    try:
        return answer(kind, regex, chunks, int(start), None if end == "end" else int(end))
    except zorfelith.Error as fault:
        return f"{'all ' if kind == 'a' else ''}status {fault.status}"


for request in sys.stdin:
    print(answered(request))
