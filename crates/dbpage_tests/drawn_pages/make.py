#!/usr/bin/env python3
"""Prints the drawn pages that end the table ../stdin, each with its coverage: make.py > rows.

The coverage is worked out here by what docs/FORMAT.md says of a page, with a count for each of its bytes, and shares nothing with the
program that is tested. Pages are drawn from a counter, so a second run prints the same.
"""

SIZE = 512
PAGES = 240


def drawing(counter):
    """Numbers drawn from a counter: each is below the bound that is asked for."""
    def below(bound):
        nonlocal counter
        counter = (counter * 1664525 + 1013904223) % (1 << 32)
        return (counter >> 8) % bound
    return below


def number(page, at, size):
    return int.from_bytes(page[at:at + size], "big")


def varint(page, at, usable):
    """The number that begins at a place and the place after it, or None where it does not end by the usable end."""
    value = 0
    for i in range(9):
        if at + i >= usable:
            return None
        byte = page[at + i]
        if i == 8:
            return value * 256 + byte, at + 9
        value = value * 128 + byte % 128
        if byte < 128:
            return value, at + i + 1
    return None


def local_size(payload, usable, is_table):
    """How many bytes of a payload are in its cell."""
    least = (usable - 12) * 32 // 255 - 23
    most = usable - 35 if is_table else (usable - 12) * 64 // 255 - 23
    if payload <= most:
        return payload
    some = least + (payload - least) % (usable - 4)
    return some if some <= most else least


def end_of_cell(page, kind, at, usable):
    """The end of the cell at a place, or None where it cannot be read."""
    begin = at + (4 if kind in (2, 5) else 0)
    first = varint(page, begin, usable)
    if first is None:
        return None
    if kind == 5:
        return first[1]
    payload, after = first
    if kind == 13:
        rowid = varint(page, after, usable)
        if rowid is None:
            return None
        after = rowid[1]
    local = local_size(payload, usable, kind == 13)
    end = after + local + (4 if local < payload else 0)
    return end if payload <= 2147483647 and end <= usable else None


def items(page, head, usable):
    """The bytes that each item holds, as a range: of the cells, and then of the freeblocks."""
    kind, content = page[head], number(page, head + 5, 2)
    found, least = [], content
    for i in range(number(page, head + 3, 2)):
        at = number(page, head + (12 if kind in (2, 5) else 8) + 2 * i, 2)
        end = end_of_cell(page, kind, at, usable) if content <= at <= usable - 4 else None
        found.append(range(0) if end is None else range(at, max(end, at + 4)))
    at = number(page, head + 1, 2)
    while max(least, content) <= at <= usable - 4:
        size = number(page, at + 2, 2)
        if size < 4 or at + size > usable:
            break
        found.append(range(at, at + size))
        least, at = at + size, number(page, at, 2)
    return found


def coverage(page, head, usable):
    """The answer of a row."""
    counts = [0] * usable
    for item, held in enumerate(items(page, head, usable)):
        for byte in held:
            counts[byte] += 1
        if any(counts[byte] > 1 for byte in held):
            return f"Overlap({item})"
    return f"Unheld({counts[number(page, head + 5, 2):].count(0)})"


def put(page, at, some):
    page[at:at + len(some)] = some
    del page[SIZE:]


def draw_cell(below, kind):
    """The bytes that begin a cell, and about how long it is."""
    left = bytes([0, 0, below(9), below(250)]) if kind in (2, 5) else b""
    payload = below(60) if below(12) else below(900)
    size = bytes([payload]) if payload < 128 else bytes([128 | payload >> 7, payload & 127])
    key = bytes([below(128)]) if below(3) else bytes([128 | below(128)] * below(9)) + bytes([below(256)])
    parts = {2: size, 5: key, 10: size, 13: size + key}[kind]
    return left + parts, len(left + parts) + (0 if kind == 5 else payload)


def draw_page(counter):
    """A page whose head is sound, the place of its head, and how many of its bytes are usable."""
    below = drawing(counter)
    page, usable = bytearray(SIZE), SIZE - below(3) * below(17)
    head = 100 if below(10) == 0 else 0
    kind = (2, 5, 10, 13, 13)[below(5)]
    count, pointers = below(7), head + (12 if kind in (2, 5) else 8)
    content = pointers + 2 * count + below(usable - pointers - 2 * count)
    at, free, gap = content, [], (1, 30, 60)[below(3)]
    put(page, head, bytes([kind, 0, 0, 0, count, content >> 8, content & 255, below(61)]))
    for i in range(count):
        if below(9) == 0:
            at = max(content, at - below(80))
        some, long = draw_cell(below, kind)
        put(page, at, some[:max(0, SIZE - at)])
        put(page, pointers + 2 * i, at.to_bytes(2, "big"))
        at = min(at + max(long, 4) + below(gap), SIZE - 1)
        if below(3) == 0 and at + 4 <= SIZE:
            free.append(at)
            at = min(at + 4 + below(20), SIZE - 1)
    # Each freeblock has room up to the next, most times.
    link = head + 1
    for place, after in zip(free, free[1:] + [usable]):
        put(page, link, place.to_bytes(2, "big"))
        put(page, place + 2, (4 + below(24) if below(3) or after < place else after - place).to_bytes(2, "big"))
        link = place
    return page, head, usable


def pieces(page):
    """The bytes of a page that are not 0, in pieces with their places."""
    at = 0
    while at < SIZE:
        if page[at] == 0:
            at += 1
            continue
        end = at + 1
        while any(page[end:end + 4]):
            end += 1
        yield at, page[at:end]
        at = end


def main():
    print("# Drawn pages, whose coverage drawn_pages/make.py works out.")
    answers = []
    for counter in range(PAGES):
        page, head, usable = draw_page(counter)
        print(f"page {1 if head else 2} of {usable}")
        for at, some in pieces(page):
            print(f"at {at} {some.hex()}")
        answers.append(coverage(page, head, usable))
        print(f"coverage = {answers[-1]}")
    overlaps = sum(answer.startswith("Overlap") for answer in answers)
    assert 60 < overlaps < PAGES - 60, overlaps


if __name__ == "__main__":
    main()
