"""Files and logs changed at random: bytes, lines, tokens, snippets."""

import re


def changed_bytes(rng, text):
    """A byte put, taken or changed, or the text cut, or a part of it left out or said twice."""
    if not text:
        return b"x"
    k = rng.randrange(len(text))
    how = rng.randrange(5)
    byte = bytes([rng.choice([rng.randrange(256), rng.choice(b"\0\r\n \t<>/!-?'\"=&;,0123456789\xef\xbb\xbf")])])
    if how == 0:
        return text[:k] + byte + text[k + 1 :]
    if how == 1:
        return text[:k] + text[k + 1 :]
    if how == 2:
        return text[:k] + byte + text[k:]
    if how == 3:
        return text[:k]
    m = rng.randrange(len(text))
    return text[: min(k, m)] + text[max(k, m) :] if rng.random() < 0.5 else text[:k] + text[m : m + 40] + text[k:]


def changed_lines(rng, text, others=()):
    """A line taken, said twice, moved, exchanged, or one of another text put in."""
    lines = text.splitlines(True)
    if not lines:
        return b"\n"
    k, m = rng.randrange(len(lines)), rng.randrange(len(lines))
    how = rng.randrange(5)
    if how == 0:
        del lines[k]
    elif how == 1:
        lines.insert(k, lines[k])
    elif how == 2:
        lines[k], lines[m] = lines[m], lines[k]
    elif how == 3:
        lines.insert(m, lines.pop(k))
    else:
        other = rng.choice([text, *others]).splitlines(True) or [b"\n"]
        lines.insert(k, rng.choice(other))
    return b"".join(lines)


def changed_token(rng, text, pattern, pool):
    """One match of a pattern taken, doubled, counted up or down, or replaced by another match or one of a pool."""
    found = list(re.finditer(pattern, text))
    if not found:
        return changed_bytes(rng, text)
    it = rng.choice(found)
    how = rng.randrange(6)
    if how == 0:
        new = b""
    elif how == 1:
        new = it[0] + b" " + it[0]
    elif how == 2:
        new = rng.choice(found)[0]
    elif how == 3 and it[0].lstrip(b"-").isdigit():
        new = b"%d" % (int(it[0]) + rng.choice([-1, 1, 2, 10]))
    else:
        new = rng.choice(pool)
    return text[: it.start()] + new + text[it.end() :]


SNIPPETS = [
    b"<!--", b"-->", b"<![CDATA[", b"]]>", b"<!DOCTYPE a>", b"<?", b"?>", b"&amp;", b"&lt;", b"<a>", b"</a>", b"<a/>",
    b"<", b">", b"/>", b"</", b"\xef\xbb\xbf", b"\0", b"\r\n", b"'", b'"', b"=", b";", b",", b";;", b"4294967295",
    b"4294967296", b"00", b"-1", b"HARD", b"SOFT", b"HA", b"H", b"GLOBAL", b"EVERY", b"SLOTS", b"LEQ", b"NULL", b"P",
    b"<CapacityConstraints>", b"</CapacityConstraints>", b"<Constraints>", b"</Constraints>", b"<Teams>", b"</Teams>",
    b"<team id='0'/>", b"<slot id='0'/>", b"<Instance>", b"</Instance>", b"<Solution>", b"</Solution>", b"<Games>",
    b"</Games>", b'<ScheduledMatch home="0" away="1" slot="0"/>', b'<SE1 teams="0;1" min="1" type="HARD"/>',
    b"<gameMode/>", b"<!-- c -->", b' min="1"', b' max="0"', b' type="HARD"', b" x:y='<'", b' a.b-c="1"', b"\xc3\xa9",
    b"<\xc3\xa9/>", b"CA1", b"CA2", b"CA3", b"CA4", b"GA1", b"BR1", b"BR2", b"FA2", b"SE1",
]  # fmt: skip


def changed_file(rng, text, others):
    """A league or season, changed in one place or a few."""
    for _ in range(rng.choice([1, 1, 1, 2, 3, 6])):
        how = rng.randrange(5)
        if how == 0:
            text = changed_bytes(rng, text)
        elif how == 1:
            text = changed_lines(rng, text, others)
        elif how == 2:
            text = changed_token(rng, text, rb"[A-Za-z0-9]+", SNIPPETS)
        elif how == 3:
            text = changed_token(rng, text, rb"(?<=\")\d+(?=[\";,])", [b"%d" % it for it in range(7)])
        else:
            k = rng.randint(0, len(text))
            text = text[:k] + rng.choice(SNIPPETS) + text[k:]
    return text


WILD_TOKENS = [
    b"0", b"-0", b"00", b"-1", b"1", b"133", b"153", b"157", b"2147483647", b"2147483648", b"-2147483648",
    b"18446744073709551615", b"18446744073709551616", b"c", b"l", b"end", b"refutation 1", b"refutation 2", b"x", b"",
    b"  ", b"\r", b"\n", b"\t", b"+1", b"1 -1",
]  # fmt: skip


def changed_log(rng, text, others):
    """A log, changed in one place or a few."""
    for _ in range(rng.choice([1, 1, 1, 1, 2, 3])):
        how = rng.randrange(4)
        if how == 0:
            text = changed_bytes(rng, text)
        elif how == 1:
            text = changed_lines(rng, text, others)
        elif how == 2:
            text = changed_token(rng, text, rb"-?\d+", [b"%d" % rng.randint(-130, 200), *WILD_TOKENS])
        else:
            text = changed_token(rng, text, rb"(?<= )[1-9]\d*(?= )", [b"%d" % rng.randint(1, 180)])
    return text
