"""Captures of SIP over UDP, made by the layouts of classic pcap, IEEE 802.3 and 802.1Q, RFC 791, RFC 8200 and RFC 768, and the calls
in them: what tools/stir-log reads, and what it must make of it."""
import struct

ETHERNET, RAW = 1, 101


def message(number, method='INVITE', to='', rest=b''):
    lines = (f'{method} sip:+12125551213@example.net SIP/2.0', f'Via: SIP/2.0/UDP a.example;branch=z9hG4bK{number}',
             'From: <sip:+12155551001@example.org>;tag=1', f'To: <sip:+12125551213@example.net>{to}', f'Call-ID: {number}',
             f'CSeq: 1 {method}', '', '')
    return '\r\n'.join(lines).encode() + rest


def udp(content, port=5060):
    return struct.pack('>HHHH', port, 5060, 8 + len(content), 0) + content


def ipv4(content, identification=0, offset=0, more=False, protocol=17, host=1):
    flags = offset // 8 | (0x2000 if more else 0)
    addresses = bytes([192, 0, 2, host, 192, 0, 2, 2])
    return struct.pack('>BBHHHBBH', 0x45, 0, 20 + len(content), identification, flags, 64, protocol, 0) + addresses + content


def ipv6(content, header=17, host=0):
    addresses = bytes.fromhex('20010db8') + bytes(11) + bytes([host]) + bytes.fromhex('20010db8') + bytes(11) + b'\1'
    return struct.pack('>IHBB', 6 << 28, len(content), header, 64) + addresses + content


def fragment6(content, offset, more):
    return struct.pack('>BBHI', 17, 0, offset | more, 7) + content


def ethernet(packet, tags=b''):
    kind = b'\x86\xdd' if packet[0] >> 4 == 6 else b'\x08\x00'
    return bytes(12) + tags + kind + packet


def pcap(frames, link, order='<', magic=0xA1B2C3D4):
    """A capture of frames with their seconds, or their seconds and fractions; one with a length as a third part is captured up to there
    alone."""
    data = struct.pack(order + 'IHHiIII', magic, 2, 4, 0, 0, 65535, link)
    for time, frame, *most in frames:
        kept = frame[:most[0]] if most else frame
        second, fraction = time if isinstance(time, tuple) else (time, 999)
        data += struct.pack(order + 'IIII', second, fraction, len(kept), len(frame)) + kept
    return data


def log(calls):
    return b''.join(b'@%d %d\n%s' % (moment, len(data), data) for moment, data in calls)


def sent(number, host=1, port=5060):
    """A call in IPv4, sent from this host of the network and this port."""
    return ipv4(udp(message(number), port), host=host)


LONG = message(8, rest=b'x' * 3000)
PIECES = [udp(LONG)[:1480], udp(LONG)[1480:2960], udp(LONG)[2960:]]
# The first call's branch in another call; its short names, with a folded field; and a call whose To only looks as if it had a tag.
OTHER_CALL = message(1).replace(b'Call-ID: 1', b'Call-ID: 2')
SHORT_NAMES = message(1).replace(b'Via:', b'v:').replace(b'Call-ID', b'i').replace(b'UDP a', b'UDP\r\n a')
NO_TAG = message(3).replace(b'<sip:+12125551213', b'"a;tag=1" <sip:b;tag=2')


def asserting(number, *fields, line=b'\r\n', rest=b''):
    """A call with these fields before its empty line."""
    head = message(number).replace(b'\r\n\r\n', b'\r\n' + b''.join(field + b'\r\n' for field in fields) + b'\r\n')
    return head.replace(b'\r\n', line) + rest


ASSERTED = b'P-Asserted-Identity: '
# P-Asserted-Identity with two values, and what that is with a field for each (RFC 3261, section 7.3.1; RFC 3325, section 9.1).
TWO = ASSERTED + b'<sip:pbx@example.org>, <tel:+12155551001>'
TWO_APART = ASSERTED + b'<sip:pbx@example.org>', ASSERTED + b'<tel:+12155551001>'
# With commas in a quoted string and in angle brackets; another name, folds, a value without brackets, and empty values.
QUOTED = ASSERTED + b'"Bond, \\"J\\" <x>," <sip:a,b@example.org;x=1>;y="1,2",<tel:+12155551001>'
QUOTED_APART = ASSERTED + b'"Bond, \\"J\\" <x>," <sip:a,b@example.org;x=1>;y="1,2"', ASSERTED + b'<tel:+12155551001>'
FOLDED = b'p-ASSERTED-identity \t:sip:a@example.org\r\n ,,\r\n\t"A\r\n B" <tel:+12155551001> ,'
FOLDED_APART = b'p-ASSERTED-identity \t: sip:a@example.org', b'p-ASSERTED-identity \t: "A\r\n B" <tel:+12155551001>'
# One value each: a comma in a quoted string, a comma at the end, a quoted string and a bracket without an end; and another field.
ALONE = (ASSERTED + b'"a, b" <sip:a@example.org>', ASSERTED + b'<sip:a@example.org>,', ASSERTED + b'"a <sip:b@example.org>, <tel:+1>',
         ASSERTED + b'<sip:b@example.org, <tel:+1>', b'P-Preferred-Identity: <sip:a@example.org>, <tel:+1>', b'X-' + TWO)
BODY = b'\r\n' + TWO + b'\r\n'

FILES = {
    # A call, its retransmission, its ACK, a response, no SIP at all, another protocol, ARP, and the padding of a short frame.
    'ethernet.pcap': pcap([(100, ethernet(ipv4(udp(message(1))) + bytes(6))),
                           (101, ethernet(ipv4(udp(message(1))))),
                           (101, ethernet(ipv4(udp(message(1, 'ACK'))))),
                           (102, ethernet(ipv4(udp(b'SIP/2.0 200 OK\r\n\r\n')))),
                           (102, ethernet(ipv4(udp(b'\0')))),
                           (102, ethernet(ipv4(message(2), protocol=6))),
                           (103, bytes(12) + b'\x08\x06' + bytes(46)),
                           (104, ethernet(ipv4(udp(message(3))), b'\x81\x00\x00\x07'))], ETHERNET),
    # In the other order of bytes, with nanoseconds, out of order, and in IPv6, also behind options.
    'raw.pcap': pcap([(205, ipv6(udp(message(5)))),
                      (204, ipv4(udp(message(4)))),
                      (206, ipv6(b'\x11' + bytes(7) + udp(message(6)), 0))], RAW, '>', 0xA1B23C4D),
    # A datagram in three fragments, the last one first; one in IPv6; one whose end is missing; one that was captured in part.
    'fragments.pcap': pcap([(300, ipv4(PIECES[2], 9, 2960)),
                            (300, ipv4(PIECES[0], 9, 0, True)),
                            (301, ipv4(PIECES[1], 9, 1480, True)),
                            (302, ipv6(fragment6(udp(message(7))[:64], 0, 1), 44)),
                            (302, ipv6(fragment6(udp(message(7))[64:], 64, 0), 44)),
                            (303, ipv4(PIECES[0], 10, 0, True)),
                            (304, ipv4(udp(LONG)), 1000)], RAW),
    # The same branch in another call, a retransmission with short names, and one call inside a dialog.
    'dialogs.pcap': pcap([(400, ipv4(udp(message(1)))),
                          (401, ipv4(udp(OTHER_CALL))),
                          (402, ipv4(udp(SHORT_NAMES))),
                          (403, ipv4(udp(message(2, to=';tag=9')))),
                          (404, ipv4(udp(NO_TAG)))], RAW),
    # Call 1 exactly 32 seconds later, which is the last retransmission that there may be (RFC 3261, section 17.1.1.2), and once more 18 seconds
    # later; call 2 a microsecond later than that, and a retransmission of this. Calls 3, 5 and 6 a second later: 3 from another address and from
    # another port, 5 in IPv6 from another address, and 6 in IPv6 from the same one.
    'retries.pcap': pcap([((500, 700000), sent(1)),
                          ((500, 700001), sent(2)),
                          ((500, 700002), sent(3)),
                          ((501, 0), ipv6(udp(message(5)))),
                          ((501, 0), ipv6(udp(message(6)))),
                          ((501, 700002), sent(3, host=3)),
                          ((501, 700003), sent(3, port=5061)),
                          ((502, 0), ipv6(udp(message(5)), host=7)),
                          ((502, 0), ipv6(udp(message(6)))),
                          ((532, 700000), sent(1)),
                          ((532, 700002), sent(2)),
                          ((533, 700002), sent(2)),
                          ((550, 700000), sent(1))], RAW),
    # The same limit in nanoseconds.
    'nanoseconds.pcap': pcap([((600, 999999998), sent(1)),
                              ((600, 999999999), sent(2)),
                              ((632, 999999998), sent(1)),
                              ((633, 0), sent(2))], RAW, '>', 0xA1B23C4D),
}
FILES['asserted.pcap'] = pcap([(700, ipv4(udp(asserting(1, TWO)))), (701, ipv4(udp(asserting(1, TWO)))), (702, ipv4(udp(asserting(2, QUOTED, FOLDED, TWO)))),
                               (703, ipv4(udp(asserting(3, *ALONE, rest=BODY)))), (704, ipv4(udp(asserting(4, TWO, line=b'\n'))))], RAW)
FILES['asserted.log'] = log([(700, asserting(1, *TWO_APART)), (702, asserting(2, *QUOTED_APART, *FOLDED_APART, *TWO_APART)),
                             (703, asserting(3, *ALONE, rest=BODY)), (704, asserting(4, *TWO_APART, line=b'\n'))])
FILES['asserted-as-is.log'] = log([(700, asserting(1, TWO)), (702, asserting(2, QUOTED, FOLDED, TWO)), (703, asserting(3, *ALONE, rest=BODY)),
                                   (704, asserting(4, TWO, line=b'\n'))])
FILES['asserted.sip'], FILES['asserted-list'] = asserting(1, TWO), b'700 asserted.sip\n'
FILES['asserted-list.log'] = log([(700, asserting(1, *TWO_APART))])
# The longest message, which would grow.
FILES['longest.sip'] = asserting(1, TWO, rest=bytes(131_072 - len(asserting(1, TWO))))
FILES['longest-list'], FILES['longest.log'] = b'700 longest.sip\n', log([(700, FILES['longest.sip'])])
FILES['cut-short.pcap'] = FILES['ethernet.pcap'][:-1]
FILES['cut-in-header.pcap'] = FILES['ethernet.pcap'][:20]
FILES['cut-between.pcap'] = FILES['ethernet.pcap'] + bytes(15)
FILES['one.sip'] = message(1)
FILES['two.sip'] = message(2)
FILES['list'] = b'; two calls\r\n500 two.sip\r\n499 one.sip\r\n'
FILES['list-of-one-twice'] = b'499 one.sip\n500 one.sip\n'
FILES['list-of-none'] = b'0499 one.sip\n'
FILES['list-of-missing'] = b'499 missing.sip\n'

FILES['ethernet.log'] = log([(100, message(1)), (104, message(3))])
FILES['raw.log'] = log([(204, message(4)), (205, message(5)), (206, message(6))])
FILES['fragments.log'] = log([(301, LONG), (302, message(7))])
FILES['dialogs.log'] = log([(400, message(1)), (401, OTHER_CALL), (403, message(2, to=';tag=9')), (404, NO_TAG)])
FILES['initial.log'] = log([(400, message(1)), (401, OTHER_CALL), (404, NO_TAG)])
FILES['retries.log'] = log([(500, message(1)), (500, message(2)), (500, message(3)), (501, message(5)), (501, message(6)), (501, message(3)),
                            (501, message(3)), (502, message(5)), (532, message(2)), (550, message(1))])
FILES['nanoseconds.log'] = log([(600, message(1)), (600, message(2)), (633, message(2))])
FILES['twice.log'] = log([(499, message(1)), (500, message(1))])
FILES['list.log'] = log([(499, message(1)), (500, message(2))])
