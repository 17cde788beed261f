"""Texts that are no longer what they were, and bytes that are none."""


def damaged(rng, text):
    """The text with one to four damages."""
    text = bytearray(text)
    for _ in range(rng.randint(1, 4)):
        at = rng.randrange(len(text) + 1)
        kind = rng.randrange(6)
        if kind == 0:
            del text[at:]
        elif kind == 1:
            del text[at : at + rng.choice((1, 1, 4, 60))]
        elif kind == 2:
            text[at:at] = bytes([rng.choice(b"\n\r \t/[]09fF-\x00\xff\"=.")])
        elif kind == 3:
            text[at : at + 1] = bytes([rng.randrange(256)])
        elif kind == 4:
            text[at:at] = text[max(0, at - 50) : at]
        else:
            text[at:at] = rng.choice((b"4294967296", b"99999999999999999999", b"-1", b"16385", b" " * 5000))
    return bytes(text)


def some_bytes(rng):
    letters = rng.choice((bytes(range(256)), b"[]0123456789.:/ abcdef\n", b"[\n=\"{},. display0123456789"))
    return bytes(rng.choice(letters) for _ in range(rng.choice((0, 1, 50, 2000))))
