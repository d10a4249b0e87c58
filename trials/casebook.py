"""The hand-written cases: their helper lines worked out (cases/README has them)."""

import os

from building import block_body, with_check


def expand_cases(folder):
    lines = []
    for name in sorted(os.listdir(folder)):
        if name.endswith(".txt"):
            with open(os.path.join(folder, name), encoding="ascii") as file:
                lines += expand(file.read().split("\n"))
    return lines


def expand(source):
    # Comments and blank lines go; helper lines, which begin with @, are
    # worked out (the file README beside the cases explains them).
    lines = []
    body = None
    for line in unroll(source):
        words = line.split(" ")
        if line == "" or line.startswith("#"):
            continue
        if words[0] == "@block":
            body = block_body(int(words[1]), int(words[2]), int(words[3]), [])
            filled = 4
        elif words[0] == "@record":
            one = bytes.fromhex("".join(words[1:]))
            if len(one) != 10:
                raise ValueError("a record has ten bytes: " + line)
            body[filled:filled + 10] = one
            filled += 10
        elif words[0] == "@set":
            body[int(words[1])] = int(words[2], 16)
        elif words[0] == "@end":
            error = int(words[1]) if len(words) > 1 else 0
            lines.append("B " + with_check(body, error).hex().upper())
        elif words[0].startswith("@"):
            lines += expand_line(words)
        else:
            lines.append(line)
    return lines


def unroll(source):
    # The loops: "@for NAME VALUES" ... "@done".
    lines = []
    place = 0
    while place < len(source):
        words = source[place].split(" ")
        place += 1
        if words[0] != "@for":
            lines.append(source[place - 1])
            continue
        end = matching_done(source, place)
        for value in words[2:]:
            lines += unroll(filled(source[place:end], words[1].split("/"), value.split("/")))
        place = end + 1
    return lines


def filled(source, names, values):
    # The lines with each {NAME} replaced by its value.
    for name, value in zip(names, values, strict=True):
        source = [line.replace("{" + name + "}", value) for line in source]
    return source


def matching_done(source, place):
    # The @done that ends the @for before `place`; loops may hold loops.
    depth = 1
    while True:
        if source[place].startswith("@for "):
            depth += 1
        elif source[place] == "@done":
            depth -= 1
            if depth == 0:
                return place
        place += 1


def expand_line(words):
    if words[0] == "@repeat":
        return [" ".join(words[2:])] * int(words[1])
    if words[0] == "@bytes":
        return [words[1] + " " + byte for byte in words[2].split(",")]
    if words[0] == "@fill":
        return [words[1] + " " + words[3] * int(words[2])]
    if words[0] == "@long":
        zeros = int(words[1]) - len(words[2]) - 1 - len(words[3])
        return [words[2] + " " + "0" * zeros + words[3]]
    if words[0] == "@empty":
        return [""]
    if words[0] == "@quote":
        return [" ".join(words[1:])[1:-1]]
    raise ValueError("unknown helper: " + " ".join(words))
