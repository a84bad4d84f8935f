"""Prints the certificates that the `stdin` of crates/vectors names, as its lines `NAME = x:..`.

They are built by X.690 and RFC 5280 from the letters of their names, and not signed: a signature's two
numbers are the digit of which the key and the serial number are made too.
"""

ALGORITHM = bytes.fromhex("300a06082a8648ce3d040302")
KEY = bytes.fromhex("301306072a8648ce3d020106082a8648ce3d030107")

EXTENSIONS = {
    "c": "300f0603551d130101ff040530030101ff",  # a certificate authority
    "0": "30120603551d130101ff040830060101ff020100",  # one with path length 0
    "1": "30120603551d130101ff040830060101ff020101",  # one with path length 1
    "d": "300e0603551d0f0101ff040403020780",  # the usage digitalSignature alone
    "k": "300e0603551d0f0101ff040403020204",  # the usage keyCertSign alone
    "s": "300b0603551d0e04040402aabb",  # an identifier of the subject's key
    "t": "300b0603551d0e04040402aabc",  # another one
    "a": "300d0603551d23040630048002aabb",  # the first of them as the issuer's
}


def element(tag, content):
    """An element in DER (X.690, sections 8.1 and 10.1)."""
    size = len(content)
    if size < 0x80:
        length = bytes([size])
    else:
        digits = size.to_bytes((size.bit_length() + 7) // 8, "big")
        length = bytes([0x80 + len(digits)]) + digits
    return bytes([tag]) + length + content


def number(value):
    """An INTEGER of a natural number."""
    return element(0x02, value.to_bytes(value.bit_length() // 8 + 1, "big"))


def name(letter):
    """A name: one common name of one letter."""
    kind = bytes.fromhex("0603550403")
    return element(0x30, element(0x31, element(0x30, kind + element(0x0C, letter.encode()))))


def entry(word):
    """An entry of an authority list: `=NUMBER`, `START+COUNT` or a code (RFC 8226, section 9)."""
    if word.startswith("="):
        return element(0xA2, element(0x16, word[1:].encode()))
    if "+" in word:
        start, count = word.split("+")
        return element(0xA1, element(0x30, element(0x16, start.encode()) + number(int(count))))
    return element(0xA0, element(0x16, word.encode()))


def authority_list(words):
    """The extension that has the authority list of these entries."""
    kind = bytes.fromhex("06082b0601050507011a")
    entries = b"".join(entry(word) for word in words.split())
    return element(0x30, kind + element(0x04, element(0x30, entries)))


def time(text):
    """A UTCTime."""
    return element(0x17, text.encode())


def certificate(subject, issuer, digit, letters="", words="", end="250101000000Z", more=b""):
    """A certificate with the extensions of these letters, a list of these entries, and more extensions."""
    own = number(digit)
    extensions = b"".join(bytes.fromhex(EXTENSIONS[letter]) for letter in letters)
    if words:
        extensions += authority_list(words)
    extensions += more
    content = element(0xA0, number(2)) + own + ALGORITHM + name(issuer)
    content += element(0x30, time("150101000000Z") + time(end)) + name(subject)
    content += element(0x30, KEY + element(0x03, b"\0\4" + bytes([digit]) * 64))
    if extensions:
        content += element(0xA3, element(0x30, extensions))
    signature = element(0x03, b"\0" + element(0x30, own + own))
    return element(0x30, element(0x30, content) + ALGORITHM + signature)


# The end of a certificate that is valid in 2015 alone.
SHORT = "160101000000Z"

# A root, an authority that it issued, leaves of this, and chains that don't hold together.
WORLD = {
    "ROOT": certificate("R", "R", 1, "c"),
    "INT": certificate("I", "R", 2, "c"),
    "LEAF": certificate("L", "I", 3, "", "709J"),
    "DIV": certificate("V", "I", 5, "", "=12125551213"),
    "SHORT_ROOT": certificate("R", "R", 1, "c", end=SHORT),
    "SHORT_INT": certificate("I", "R", 2, "c", end=SHORT),
    "OTHER_INT": certificate("I", "R", 9, "c"),
    "ONE_INT": certificate("I", "R", 2, "c", "=1"),
    "CODE_CA": certificate("I", "R", 2, "c", "709J"),
    "BARE_LEAF": certificate("L", "I", 3),
    "SHORT_LEAF": certificate("L", "I", 3, "", "709J", end="150925191320Z"),
    "NUMBER_LEAF": certificate("L", "I", 4, "", "=12155551050"),
    "LOST_LEAF": certificate("L", "J", 3, "", "709J"),
    "OTHER_LEAF": certificate("L", "I", 4, "", "709J"),
    "CODE_ROOT": certificate("R", "R", 1, "c", "1"),
    "A1": certificate("A", "R", 6, "c", "12155551000+100"),
    "A2": certificate("B", "A", 7, "c", "12155551000+200"),
    "A_LEAF": certificate("C", "B", 8, "", "=12155551050"),
}

# Paths: the letters of subject and issuer, and a letter for each extension; all keys are alike.
PATHS = (
    "LI LIa LId LIk IR IRc IRcd IRck IRcs IRct IR0 IR0k IJ IJc IJ0 JR JRc JR0 JR0d JR1 KR RRc RRck RR0 RR1 SRc SSc"
)


def main():
    for word, value in WORLD.items():
        print(f"{word} = x:{value.hex()}")
    for word in PATHS.split():
        print(f"{word} = x:{certificate(word[0], word[1], 3, word[2:]).hex()}")


if __name__ == "__main__":
    main()
