#!/usr/bin/env python3
"""Writes crates/pcframe/stdin and crates/pcframe/stdout, the examples that pcframe is run on.

What is expected comes from outside the program: frames and replies as the protocol's document prints them, and, for other
lengths, frames that this script builds by the rules with the checksum of Python's own library (binascii.crc_hqx).
"""
import binascii
import os

NAMES = {0x00: 'ok', 0x02: 'invalid command', 0x03: 'invalid CRC', 0x08: 'invalid channel', 0x09: 'invalid parameter', 0x0F: 'general error'}
cases = []


def case(line, answer):
    cases.append((line if isinstance(line, bytes) else line.encode(), answer))


def digits(data):
    return ' '.join('%02X' % b for b in data)


def sealed(body):
    return body + binascii.crc_hqx(body, 0).to_bytes(2, 'big')


def command(code, address, param):
    return sealed(bytes([0x2F, code]) + address.to_bytes(2, 'big') + bytes([len(param) % 256]) + param)


def reply(code, address, param, ack):
    return sealed(bytes([0x2E, code]) + address.to_bytes(2, 'big') + bytes([len(param) % 256]) + param + bytes([ack]))


def shown(code, address, param, ack):
    name = ' (%s)' % NAMES[ack] if ack in NAMES else ''
    return 'command %02X address %04X ACK %02X%s parameter %s' % (code, address, ack, name, digits(param))


# As printed: every whole command and every whole reply of the protocol's document.
case('p 30 0000 00', '2F 30 00 00 01 00 CF D4')
case('p 31 0000 00', '2F 31 00 00 01 00 65 85')
case('p 32 0000 00', '2F 32 00 00 01 00 8B 57')
case('p 33 0000 00', '2F 33 00 00 01 00 21 06')
case('p 34 0000 00', '2F 34 00 00 01 00 46 D2')
case('p 38 0000 00', '2F 38 00 00 01 00 CD F9')
case('u 2E 30 00 00 01 00 00 44 C2', 'command 30 address 0000 ACK 00 (ok) parameter 00')
case('u 2E 34 00 00 01 00 00 42 63', 'command 34 address 0000 ACK 00 (ok) parameter 00')
case('u 2E 38 00 00 01 00 00 49 80', 'command 38 address 0000 ACK 00 (ok) parameter 00')
# Two replies of a programming box: a wrong CRC told, and the protocol's version.
case('u 2E 30 00 00 01 00 03 74 A1', 'command 30 address 0000 ACK 03 (invalid CRC) parameter 00')
case('u 2E 31 00 00 01 6A 00 E5 83', 'command 31 address 0000 ACK 00 (ok) parameter 6A')

# Lengths both ways; 256 parameter bytes have PARAM_LEN 00.
for n in (1, 2, 255, 256):
    param = bytes((7 * k + n) % 256 for k in range(n))
    case('p 3B 1FC0 ' + digits(param), digits(command(0x3B, 0x1FC0, param)))
    case('u ' + digits(reply(0x3A, 0x1FC0, param, 0)), shown(0x3A, 0x1FC0, param, 0))

# Every ACK that has a name, and some that have none.
for ack in (0x00, 0x02, 0x03, 0x08, 0x09, 0x0F, 0x01, 0x04, 0x10, 0xFF):
    case('u ' + digits(reply(0x37, 0xBEEF, b'\x00', ack)), shown(0x37, 0xBEEF, b'\x00', ack))

# Digits may be small; any command byte is packed.
case('p 3f abcd ff 0a', digits(command(0x3F, 0xABCD, b'\xff\x0a')))
case('p 00 FFFF 00', digits(command(0x00, 0xFFFF, b'\x00')))
case('u ' + digits(reply(0x3D, 0x00FF, b'\xde\xad', 0)).lower(), shown(0x3D, 0x00FF, b'\xde\xad', 0))

# Packing is refused at its edges: no parameter byte, and more than 256.
case('p 30 0000', '!25')
case('p 3B 0000 ' + digits(bytes(257)), '!25')
case('p 3B 0000 ' + digits(bytes(1000)), '!25')

# Unpacking is refused at its edges: under 9 bytes, another first byte, a length that is not what PARAM_LEN says.
good = reply(0x30, 0x0000, b'\x00', 0)
case('u', '!26')
case('u ' + digits(good[:8]), '!26')
case('u 2F' + ' ' + digits(good[1:]), '!26')
case('u ' + digits(good + b'\x00'), '!26')
case('u ' + digits(good[:4] + b'\x02' + good[5:]), '!26')
case('u ' + digits(good[:4] + b'\x00' + good[5:]), '!26')
whole = reply(0x3A, 0x0000, bytes(256), 0)
case('u ' + digits(whole[:-1]), '!26')
case('u ' + digits(whole + b'\x00'), '!26')
case('u ' + digits(command(0x30, 0x0000, b'\x00\x00')), '!26')
# then a CRC that differs: in its low byte, its high byte, the ACK, the parameter, two neighbours across the CRC's border.
case('u 2E 30 00 00 01 00 00 44 C3', '!27')
case('u 2E 30 00 00 01 00 00 45 C2', '!27')
case('u 2E 30 00 00 01 00 01 44 C2', '!27')
case('u 2E 30 00 00 01 01 00 44 C2', '!27')
case('u 2E 30 00 00 01 00 01 45 C2', '!27')
case('u ' + digits(whole[:100] + b'\x01' + whole[101:]), '!27')
# a CRC that leaves the ACK out
case('u ' + digits(good[:7] + binascii.crc_hqx(good[:6], 0).to_bytes(2, 'big')), '!27')

# Lines that are neither.
for line in ('', ' ', 'p', 'p ', 'p 30', 'p 30 0000 ', 'p  30 0000 00', 'p 30 0000  00', 'p 3 0000 00', 'p 30 000 00', 'p 30 0000 0', 'p 30 0000 000',
             'p 30 00000 00', 'p 3G 0000 00', 'p 30 0000 0x', 'p30 0000 00', 'P 30 0000 00', ' p 30 0000 00', 'u ', 'u 2', 'u 2E 3', 'u2E', 'U 2E', 'u 2E,30',
             'u\t2E', 'q', 'x', 'p 30 0000 00 ', '?', 'u 2E 30 00 00 01 00 00 44 C2 '):
    case(line, '?')
case(b'\xff\xfe\x00\x80', '?')
case(b'p 30 0000 \xc3\xa9', '?')
case(b'u \x00\x00', '?')
case(b'x' * 5000, '?')

# A carriage return before the end of the line belongs to the end.
case(b'p 30 0000 00\r', '2F 30 00 00 01 00 CF D4')
case(b'\r', '?')
case(b'p 30 0000 00\r\r', '?')

home = os.path.join(os.path.dirname(os.path.dirname(os.path.abspath(__file__))), 'crates', 'pcframe')
with open(os.path.join(home, 'stdin'), 'wb') as f:
    # the last line has no end
    f.write(b'\n'.join(line for line, _ in cases) + b'\np 30 0000 00')
with open(os.path.join(home, 'stdout'), 'w', encoding='ascii') as f:
    f.write(''.join(answer + '\n' for _, answer in cases) + '2F 30 00 00 01 00 CF D4\n')
print(len(cases) + 1, 'lines')
