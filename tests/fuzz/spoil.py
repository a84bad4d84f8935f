"""How an input or a file is spoilt, by a generator of random numbers."""
import base64
import re

from given import entries

NUMBERS = [b'0', b'1', b'01', b'-1', b'255', b'256', b'65535', b'65536', b'131072', b'131073', b'1000000', b'1443208345', b'253402300799', b'253402300800',
           b'4294967295', b'4294967296', b'18446744073709551615', b'18446744073709551616', b'1e9', b'1.0', b'9' * 40]
TOKENS = [b'\r\n', b'\n', b'\r', b'\0', b' ', b'\t', b':', b';', b',', b'"', b'\\', b'<', b'>', b'@', b'.', b'..', b'=', b'*', b'#', b'+', b'%', b'\xff', b'\xc3\xa9',
          b'\r\n ', b'\r\n\t', b'\n\n', b'\r\n\r\n', b'INVITE ', b'Identity: ', b'y:', b'f:', b't:', b'From: <tel:+1>\r\n', b'To: <sip:1@a>\r\n', b'Date: Fri, 25 Sep 2015 19:12:25 GMT\r\n',
          b'P-Asserted-Identity: <tel:+12155551212>\r\n', b'SIP/2.0', b';info=<u>', b';ppt=shaken', b';ppt=div', b';alg=ES256', b'e30', b'confirm ', b'sign ', b'709J *\n', b'709J 1 1\n',
          b'https://cert.example.org/passport.cer']
DER = [b'\x30\x80', b'\x30\x81', b'\x30\x82\xff\xff', b'\x30\x84\xff\xff\xff\xff', b'\x30\x88' + b'\xff' * 8, b'\x02\x00', b'\x02\x01\x80', b'\x03\x00', b'\x03\x01\x09', b'\x04\x00', b'\x1f\x01',
       b'\x05\x00', b'\xa0\x00', b'\xa3\x00', b'\x01\x01\x01', b'\x17\x0d999999999999Z', b'\x18\x0f99991231235959Z', b'\x18\x0f00000101000000Z']


def cut(rng, data):
    at = rng.randrange(len(data) + 1)
    return rng.choice([data[:at], data[at:], data[:at] + data[min(len(data), at + rng.randint(1, 40)):]])


def double(rng, data):
    start = rng.randrange(len(data) + 1)
    part = data[start:start + rng.choice([1, 4, 40, 400, len(data)])]
    return data[:start] + part * rng.choice([2, 2, 3, 17, 300 if len(part) < 100 else 2]) + data[start + len(part):]


def exchange(rng, data):
    first, second = sorted(rng.randrange(len(data) + 1) for _ in '12')
    size = rng.randint(1, 60)
    return data[:first] + data[second:second + size] + data[first + size:second] + data[first:first + size] + data[second + size:]


def flip(rng, data):
    out = bytearray(data)
    for _ in range(rng.choice([1, 1, 2, 8])):
        if out:
            out[rng.randrange(len(out))] ^= 1 << rng.randrange(8)
    return bytes(out)


def put(rng, data):
    at = rng.randrange(len(data) + 1)
    return data[:at] + rng.choice(TOKENS) * rng.choice([1, 1, 1, 2, 40, 2000]) + data[at + rng.choice([0, 0, 1, 5]):]


def limit(rng, data):
    """A number at its limits."""
    found = list(re.finditer(rb'[0-9]+', data))
    if not found:
        return put(rng, data)
    one = rng.choice(found)
    return data[:one.start()] + rng.choice(NUMBERS) + data[one.end():]


def lines(rng, data):
    """Lines doubled, dropped or in another order."""
    parts = data.splitlines(keepends=True)
    if len(parts) < 2:
        return double(rng, data)
    at, other = rng.randrange(len(parts)), rng.randrange(len(parts))
    how = rng.randrange(4)
    if how == 0:
        parts[at:at] = [parts[other]] * rng.choice([1, 2, 17, 100])
    elif how == 1:
        del parts[at]
    elif how == 2:
        parts[at], parts[other] = parts[other], parts[at]
    else:
        parts[at] = b' ' + parts[at]
    return b''.join(parts)


def nest_json(rng, text):
    """A JSON text nested, with members twice, or with values of other kinds."""
    deep = rng.choice([2, 20, 127, 128, 129, 2000])
    values = [b'null', b'true', b'[]', b'{}', b'"\\u0000"', b'"\\ud800"', b'-0', b'1e400', b'1443208345.0', b'"' + b'x' * rng.choice([1, 5000]) + b'"', b'[' * deep + b']' * deep,
              b'{"a":' * deep + b'1' + b'}' * deep, b'[' + b'"1",' * rng.choice([31, 32, 1000]) + b'"1"]', *NUMBERS]
    found = list(re.finditer(rb'"[^"]*"|[0-9]+|\[[^][]*\]|\{[^{}]*\}', text))
    how = rng.randrange(4)
    if not found or how == 0:
        return rng.choice([b'[%s]', b'{"a":%s}', b' %s ', b'%s%s']).replace(b'%s', text)
    one = rng.choice(found)
    if how == 1:
        return text[:1] + one[0] + b':' + rng.choice(values) + b',' + text[1:]
    return text[:one.start()] + rng.choice(values) + text[one.end():]


def token(rng, data):
    """A part of a token decoded, spoilt and encoded again."""
    found = list(re.finditer(rb'ey[A-Za-z0-9_-]{10,}', data))
    if not found:
        return put(rng, data)
    one = rng.choice(found)
    whole = one[0][:len(one[0]) - (len(one[0]) % 4 == 1)]
    text = base64.urlsafe_b64decode(whole + b'=' * (-len(whole) % 4))
    text = rng.choice([nest_json, nest_json, flip, cut, double, limit, put])(rng, text)
    return data[:one.start()] + base64.urlsafe_b64encode(text).rstrip(b'=') + data[one.end():]


def element(rng, data):
    """A length, a tag or a part of DER spoilt, or an element put around or into another."""
    at = rng.randrange(len(data) + 1)
    how = rng.randrange(4)
    if how == 0:
        return data[:at] + rng.choice(DER) + data[at:]
    if how == 1:
        return data[:at] + bytes([rng.choice([0, 1, 0x7f, 0x80, 0x81, 0x82, 0x84, 0xff])]) + data[at + 1:]
    if how == 2:
        deep = rng.choice([1, 5, 100])
        for _ in range(deep):
            size = len(data)
            data = b'\x30' + (bytes([size]) if size < 128 else b'\x82' + (size % 65536).to_bytes(2, 'big')) + data
        return data
    found = [place for place in range(len(data)) if data[place] in (0x30, 0x02, 0x03, 0x04, 0x06, 0xa0, 0xa1, 0xa2, 0xa3)]
    if not found:
        return flip(rng, data)
    place = rng.choice(found)
    return data[:place + 1] + bytes([rng.randrange(256)]) + data[place + 2:]


ANY = [cut, double, exchange, flip, put, limit]


def spoilt(rng, data, others):
    """A text spoilt once to four times."""
    kinds = ANY + [lines, token, token] if b'\n' in data else ANY + [element, element, element]
    for _ in range(rng.choice([1, 1, 1, 2, 4])):
        data = rng.choice(kinds)(rng, data)
    if rng.random() < 0.05:
        at = rng.randrange(len(data) + 1)
        data = data[:at] + rng.choice(others)
    return data[:1 << 20]


def spoilt_log(rng, log, others):
    """A log of which a message is spoilt and put back with its length, mostly; or the log as a text."""
    found, fault = entries(log)
    if not found or rng.random() < 0.2:
        return spoilt(rng, log, others)
    at = rng.randrange(len(found))
    moment, message = found[at]
    found[at] = moment, spoilt(rng, message, others)
    if rng.random() < 0.2:
        found *= rng.choice([2, 3, 300 if len(log) < 3000 else 2])
    return b''.join(b'@%d %d\n' % (moment, len(message)) + message for moment, message in found)[:4 << 20]
