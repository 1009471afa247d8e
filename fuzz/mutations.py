"""Ways to spoil a text, each a function of a random source and bytes. None of them cares whether what comes is still a text."""
import re

TOKENS = re.compile(rb"[A-Za-z_$][A-Za-z0-9_$]*|[0-9]+|[ \t\r\n\f]+|%%|&&|\|\||\+\+|--|[=!<>+]=|[^\x00]")
WORDS = (b"class", b"int", b"boolean", b"void", b"new", b"this", b"null", b"true", b"false", b"while", b"if", b"else", b"try",
    b"finally", b"return", b"break", b"continue", b"Integer", b"Lock", b"ReentrantLock", b"AtomicMarkableReference", b"package",
    b"import", b"final", b"volatile", b"public", b"setup", b"thread", b"all", b"synchronized", b"for", b"goto", b"static",
    b"Integer.MIN_VALUE", b"Integer.MAX_VALUE", b"boolean[]", b"new boolean[1]", b"add", b"remove", b"contains", b"get",
    b"compareAndSet", b"getReference", b"isMarked", b"attemptMark", b"set", b"lock", b"unlock", b"tryLock", b"A", b"B", b"C")
SIGNS = (b"(", b")", b"{", b"}", b"[", b"]", b";", b",", b".", b"=", b"==", b"!=", b"<", b">", b"<=", b">=", b"+", b"-", b"*", b"/",
    b"%", b"!", b"&&", b"||", b"&", b"|", b"^", b"~", b"?", b":", b"@", b"++", b"--", b"+=", b"->", b"::", b"<<", b">>>", b"...")
NUMBERS = (b"0", b"1", b"2147483647", b"2147483648", b"2147483649", b"4294967296", b"9223372036854775808", b"18446744073709551615",
    b"18446744073709551616", b"00", b"08", b"1_0", b"0x1F", b"1L", b"-1", b"1000000", b"1000001", b"999999", b"65536", b"256", b"257",
    b"9" * 400)
ODD = (b"\xff", b"\xc3", b"\xc3\xa9", b"\xef\xbb\xbf", b"\x00", b"\x1a", b"\\u0041", b"\xe2\x80\xa8", b"\xf0\x9f\x92\xa9", b"\xed\xa0\x80",
    b"\r", b"\r\n", b"\n", b"\t", b"\f", b"\v", b"\x7f", b"'", b'"', b"#", b"`", b"//", b"/*", b"*/", b"/*/", b"/**/", b"// x\n")
NESTS = ((b"(", b"1", b")"), (b"!", b"true", b""), (b"- ", b"1", b""), (b"{", b"", b"}"), (b"if (true) ", b";", b""),
    (b"try { ", b"", b" } finally { }"), (b"try { } finally { ", b"", b" }"), (b"while (true) try { } finally { ", b"", b" }"),
    (b"while (true) { ", b"", b" }"), (b"1 + (", b"1", b")"), (b"x.f(", b"1", b")"), (b"a[", b"0", b"]"), (b"1 + ", b"1", b""),
    (b"true && ", b"true", b""), (b"a.", b"b", b""), (b"L: while (true) ", b"break;", b""), (b"new C(", b"", b")"),
    (b"for (;;) ", b"break;", b""), (b"for (int i = 0; i < 2; i++) { ", b"", b" }"), (b"synchronized (this) { ", b"", b" }"))


def spot(r, text):
    return r.randrange(len(text) + 1)


def piece(r, text, most=40):
    start = spot(r, text)
    return start, min(len(text), start + r.randrange(1, most))


def inserted(text, at, more):
    return text[:at] + more + text[at:]


def flip(r, text):
    at = spot(r, text[1:])
    return text[:at] + bytes([text[at] ^ (1 << r.randrange(8))]) + text[at + 1:] if text else text


def byte(r, text):
    return inserted(text, spot(r, text), bytes([r.randrange(256)]))


def delete(r, text):
    start, end = piece(r, text)
    return text[:start] + text[end:]


def cut(r, text):
    return text[:spot(r, text)]


def duplicate(r, text):
    start, end = piece(r, text, 200)
    return inserted(text, spot(r, text), text[start:end] * r.choice((1, 1, 2, 5)))


def odd(r, text):
    return inserted(text, spot(r, text), r.choice(ODD))


def token_list(text):
    return TOKENS.findall(text)


def token_spot(r, tokens):
    """A place of a token that is no gap, where there is one."""
    solid = [place for place, token in enumerate(tokens) if token.strip()]
    return r.choice(solid) if solid else None


def swap(r, text):
    tokens = token_list(text)
    first, second = token_spot(r, tokens), token_spot(r, tokens)
    if first is None:
        return text
    tokens[first], tokens[second] = tokens[second], tokens[first]
    return b"".join(tokens)


def drop(r, text):
    tokens = token_list(text)
    place = token_spot(r, tokens)
    return b"".join(tokens[:place] + tokens[place + 1:]) if tokens and place is not None else text


def replace(r, text):
    """One token by another of the text, or by a word, a sign or a number."""
    tokens = token_list(text)
    place = token_spot(r, tokens)
    if place is None:
        return text
    tokens[place] = r.choice((tokens[token_spot(r, tokens)], r.choice(WORDS), r.choice(SIGNS), r.choice(NUMBERS)))
    return b"".join(tokens)


def renamed(r, text):
    """Every use of one name by another name."""
    names = sorted(set(re.findall(rb"[A-Za-z_$][A-Za-z0-9_$]*", text)))
    if not names:
        return text
    new = r.choice((r.choice(names), r.choice(WORDS), b"q" * r.choice((1, 200, 5000))))
    return re.sub(rb"\b" + re.escape(r.choice(names)) + rb"\b", lambda _: new, text)


def number(r, text):
    found = list(re.finditer(rb"[0-9]+", text))
    if not found:
        return text
    one = r.choice(found)
    return text[:one.start()] + r.choice(NUMBERS) + text[one.end():]


def number_nearby(r, text):
    """A number by one that is a little off, so that what comes is often still accepted."""
    found = list(re.finditer(rb"\b[0-9]{1,6}\b", text))
    if not found:
        return text
    one = r.choice(found)
    near = max(0, int(one.group()) + r.choice((-2, -1, 1, 2, 10)))
    return text[:one.start()] + str(near).encode() + text[one.end():]


def cut_line(r, text):
    return inserted(text, spot(r, text), r.choice((b"\n%%\n", b"%%", b"\n%%", b"%%\n", b"\n%%\r\n", b"\n %%\n", b"\n%% \n", b"\n%%%\n")))


def line_ends(r, text):
    return text.replace(b"\n", r.choice((b"\r\n", b"\r", b"\n\n", b"\f\n", b" ")))


def deep(r, text):
    """Many openings, with or without their endings, at some token."""
    opening, middle, ending = r.choice(NESTS)
    count = r.choice((2, 5, 20, 40, 60, 64, 100, 125, 126, 127, 128, 129, 130, 300, 2000))
    more = opening * count + middle + ending * r.choice((count, count, count, 0, count - 1, count + 1))
    tokens = token_list(text)
    place = token_spot(r, tokens)
    if place is None:
        return more
    return b"".join(tokens[:place] + [more] + tokens[place + r.randrange(2):])


def many(r, text):
    """One token or one piece, very often."""
    start, end = piece(r, text, 30)
    count = r.choice((10, 64, 65, 128, 129, 257, 513, 1000))
    return inserted(text, end, text[start:end] * count)


def line_order(r, text):
    lines = text.split(b"\n")
    first, second = r.randrange(len(lines)), r.randrange(len(lines))
    lines[first], lines[second] = lines[second], lines[first]
    return b"\n".join(lines)


ALL = (flip, byte, delete, cut, duplicate, odd, swap, drop, replace, replace, renamed, number, number_nearby, number_nearby, cut_line,
    line_ends, deep, many, line_order)


def spoilt(r, text, times):
    for _ in range(times):
        text = r.choice(ALL)(r, text)
        if len(text) > 300_000:
            return text[:300_000]
    return text


def spliced(r, first, second):
    """The beginning of one text and the end of another."""
    return first[:spot(r, first)] + second[spot(r, second):]
