"""The orders of documents 01 and 02 as bytes. Floats are kept as their 64 bits, so that no order loses anything."""
import struct

BODIES = ('earth', 'moon', 'sun', 'venus', 'mars', 'jupiter')
TERMS = ('J', 'A', 'K')
SPOKEN = ('radius', 'latitude', 'longitude', 'speed', 'path', 'azimuth')  # document 02, R-4
NOMINAL = {  # document 01, "Setting, state, acceleration"; J and A: document 02, R-7
    'earth': '398603.20', 'moon': '4900.7589', 'sun': '132715440000', 'venus': '324769.50', 'mars': '42977.799',
    'jupiter': '126710600', 'J': '0.001623450', 'A': '6378.1650',
}
PLAIN = struct.Struct('<6QQ3Q3QIIQ')  # coefficients, moment, position, velocity, h, DUT, target
WHOLE = struct.Struct('<3Q')          # J, A, K after them


def bits(number):
    return struct.unpack('<Q', struct.pack('<d', number))[0]


def number(pattern):
    return struct.unpack('<d', struct.pack('<Q', pattern))[0]


def pack(order):
    """120 bytes, or 144 if the order has J, A and K."""
    coefficients = [order[body][0] for body in BODIES]
    data = PLAIN.pack(*coefficients, order['start'], *order['position'], *order['velocity'], order['step'], order['dut'],
                      order['target'])
    return data + WHOLE.pack(*(order[term][0] for term in TERMS)) if 'J' in order else data


def unpack(data):
    """The order in 120 or 144 bytes."""
    fields = PLAIN.unpack_from(data)
    order = {body: [c] for body, c in zip(BODIES, fields)}
    order['start'], order['position'], order['velocity'] = fields[6], list(fields[7:10]), list(fields[10:13])
    order['step'], order['dut'], order['target'] = fields[13:]
    if len(data) == PLAIN.size + WHOLE.size:
        order.update((term, [t]) for term, t in zip(TERMS, WHOLE.unpack_from(data, PLAIN.size)))
    return order
