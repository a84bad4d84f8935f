"""SIP messages, as far as `stir-log` looks into them (RFC 3261), and the x5u of an Identity field (RFC 8224)."""
import re

# The short names of header fields (RFC 3261, section 20; RFC 8224, section 4).
SHORT = {'f': 'from', 'i': 'call-id', 't': 'to', 'v': 'via', 'y': 'identity'}

# These begin with one byte, for which the search is quick.
VALUE = rb'[ \t]*:([^\n]*(?:\n[ \t][^\n]*)*)'
EVERY = re.compile(rb'\n([^\s:]+)' + VALUE)
OF_REQUEST = re.compile(rb'\n(?=[VvCcIiTt])(via|v|call-id|i|cseq|to|t)' + VALUE, re.I)
FOLD = re.compile(r'\r?\n[ \t]+')
BRANCH = re.compile(r';\s*branch\s*=\s*([^;,\s]+)', re.I)
QUOTED = re.compile(r'"(?:\\.|[^"\\])*(?:"|$)', re.S)
# A parameter of an Identity field (RFC 8224, section 4): its name, and a value in quotes, in angle brackets or bare.
PARAMETER = re.compile(r';\s*([^\s;="<>]+)(?:\s*=\s*(?:"([^"]*)"|<([^>]*)>|([^;,\s"<]*)))?')

# P-Asserted-Identity (RFC 3325, section 9.1), and the parts of a list's text: a quoted string, angle brackets, a comma, and the rest.
ASSERTED_NAME = b'\np-asserted-identity'
ASSERTED = re.compile(rb'\n(P-Asserted-Identity[ \t]*:)([^\n]*(?:\n[ \t][^\n]*)*)', re.I)
PART_OF_LIST = re.compile(rb'"(?:\\.|[^"\\])*"|<[^<>]*>|,|[^",<]+', re.S)

# An x5u, as a chain map takes it (docs/FORMATS.md).
X5U = re.compile(r'[!#-;=?-\[\]-~]+')


def end_of_head(message):
    """Where the last line of the head ends, before an empty line."""
    ends = [end for end in (message.find(b'\n\r\n'), message.find(b'\n\n')) if end >= 0]
    return min(ends, default=len(message))


def fields(message, wanted=EVERY):
    """The values of the header fields by their whole names in lower case, those of one name in their order (RFC 3261, section 7.3)."""
    found = {}
    for name, value in wanted.findall(message, 0, end_of_head(message)):
        name, value = name.decode('latin-1').lower(), value.decode('latin-1')
        found.setdefault(SHORT.get(name, name), []).append(FOLD.sub(' ', value).strip() if '\n' in value else value.strip())
    return found


def first(found, name):
    """The first value of a header field, or the empty text."""
    return found.get(name, ('',))[0]


def values_of_list(text):
    """The values of a field that is a list (RFC 3261, section 7.3.1), without empty ones; one alone if a quoted string or a bracket has no end."""
    parts = PART_OF_LIST.findall(text)
    if sum(map(len, parts)) < len(text):
        return [text]
    values = [b'']
    for part in parts:
        if part == b',':
            values.append(b'')
        else:
            values[-1] += part
    return [value.strip() for value in values if value.strip()]


def asserted_apart(message):
    """The message with one P-Asserted-Identity field for each value, which means the same (RFC 3261, section 7.3.1); and how many fields were split."""
    if ASSERTED_NAME not in message.lower():
        return message, 0
    split = 0

    def apart(found):
        nonlocal split
        values = values_of_list(found[2])
        if len(values) < 2:
            return found[0]
        split += 1
        end = b'\r' if found[2].endswith(b'\r') else b''
        return b''.join(b'\n%s %s%s' % (found[1], value, end) for value in values)

    end = end_of_head(message)
    head = ASSERTED.sub(apart, message[:end])
    return head + message[end:], split


def transaction(found):
    """What a retransmission has in common with the request: branch of the topmost Via, Call-ID and CSeq; None if one is missing."""
    branch = BRANCH.search(first(found, 'via').split(',', 1)[0])
    parts = branch and branch[1], first(found, 'call-id'), first(found, 'cseq')
    return parts if all(parts) else None


def in_dialog(found):
    """Whether To has a tag (RFC 3261, section 12.2)."""
    value = QUOTED.sub('', first(found, 'to'))
    return re.search(r';\s*tag\s*=', value.rpartition('>')[2], re.I) is not None


def x5u_of(value):
    """The x5u of an Identity field's value, which is its first parameter, where it is one that a chain map takes; else the empty text."""
    found = PARAMETER.search(value)
    return found[3] if found and found[1].lower() == 'info' and found[3] and X5U.fullmatch(found[3]) else ''
