"""Input changed at random: bytes, and lines of an order's text."""
import re

ODD = ['', '0', '-1', '1e400', 'nan', '1e-400', '9' * 40, 'x', '\0', 'é', '1970-01-01',
       '2050-01-01', '1950-02-30', '60 s', '0x10', '1_0', ' ', '\t', '#', ': :', '+5']


def bytes_changed(chance, data):
    """Bytes flipped, cut off, taken out, doubled or put in, one to three times."""
    data = bytearray(data)
    for _ in range(chance.randrange(1, 4)):
        at, length = chance.randrange(len(data) + 1), chance.choice([1, 1, 4, 8, 24])
        kind = chance.randrange(6)
        if kind == 0:
            del data[at:]
        elif kind == 1:
            del data[at:at + length]
        elif kind == 2:
            data[at:at] = data[at:at + chance.choice([length, 100])]
        elif kind == 3:
            data[at:at + length] = chance.choice([b'\0', b'\xff', b'\x7f', b'%', b'\r\n']) * length
        elif at < len(data):
            data[at] ^= 1 << chance.randrange(8)
    return bytes(data)


def order_text(chance, lines):
    """A text of an order with a few lines changed."""
    lines = list(lines)
    for _ in range(chance.randrange(4)):
        at = chance.randrange(len(lines))
        kind = chance.randrange(6)
        if kind == 0:
            lines.insert(at, lines[chance.randrange(len(lines))])
        elif kind == 1:
            lines.pop(at)
        elif kind == 2:
            words = lines[at].split(' ')
            words[chance.randrange(len(words))] = chance.choice(ODD)
            lines[at] = ' '.join(words)
        elif kind == 3:
            lines[at] = re.sub(r'\d', lambda _: str(chance.randrange(10)), lines[at])
        elif kind == 4:
            place = chance.randrange(len(lines[at]) + 1)
            lines[at] = lines[at][:place] + chance.choice(ODD) + lines[at][place:]
        lines = lines or ['']
    data = '\n'.join(lines).encode(errors='surrogatepass') + b'\n'
    return data if chance.randrange(20) else bytes(byte ^ (chance.randrange(50) == 0) for byte in data)
