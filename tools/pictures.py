"""Small pictures for an encoder: PNG and APNG, written by Python's own means, with content that depends on a number alone."""
import struct
import zlib


def chunk(kind, data):
    return struct.pack('>I', len(data)) + kind + data + struct.pack('>I', zlib.crc32(kind + data))


def pixel(x, y, c, seed):
    """Slopes, and a patch of noise that a lossless coder can't foresee."""
    smooth = (x * (3 + c) + y * (5 - c) + 40 * c) // 4
    noise = (x * 7919 + y * 104729 + c * 1299709 + seed * 15485863) * 2654435761 >> 13 & 63
    return (smooth + (noise if (x // 32 + y // 32 + seed) % 3 == 0 else 0)) % 256


def rows(width, height, channels, seed):
    """Filtered rows of a PNG: filter 0, then the samples."""
    return b''.join(b'\0' + bytes(pixel(x, y, c, seed) for x in range(width) for c in range(channels)) for y in range(height))


COLOUR = {1: 0, 2: 4, 3: 2, 4: 6}                    # PNG's number for grey, grey + alpha, RGB, RGBA
SIGNATURE = b'\x89PNG\r\n\x1a\n'


def png(width, height, channels=3, seed=1, icc=None, samples=None):
    head = struct.pack('>IIBBBBB', width, height, 8, COLOUR[channels], 0, 0, 0)
    colour = chunk(b'iCCP', b'own\0\0' + zlib.compress(icc)) if icc else b''
    samples = samples or rows(width, height, channels, seed)
    return SIGNATURE + chunk(b'IHDR', head) + colour + chunk(b'IDAT', zlib.compress(samples, 1)) + chunk(b'IEND', b'')


def letters(width, height):
    """A page with one sign again and again, for an encoder that keeps such signs apart."""
    sign = ['0111110', '1000001', '1011101', '1010001', '1011101', '1000001', '0111110', '0001000', '0011100']

    def ink(x, y):
        dx, dy = x % 23, y % 19
        return 0 if dx < 7 and dy < 9 and sign[dy][dx] == '1' else 255
    return png(width, height, samples=b''.join(b'\0' + bytes(ink(x, y) for x in range(width) for _ in range(3)) for y in range(height)))


def profile():
    """An ICC profile of odd colours and a curve of five points, which no short form of the colour encoding can say."""
    def fixed(x):
        return struct.pack('>i', round(x * 65536))

    def xyz(*v):
        return b'XYZ \0\0\0\0' + b''.join(map(fixed, v))
    curve = b'curv\0\0\0\0' + struct.pack('>I5H', 5, 0, 3000, 20000, 41000, 65535) + b'\0\0'
    text = b'text\0\0\0\0nobody\0\0'
    name = b'desc\0\0\0\0' + struct.pack('>I', 4) + b'own\0' + bytes(79)
    parts = [(b'desc', name), (b'cprt', text), (b'wtpt', xyz(0.9642, 1, 0.8249)), (b'rXYZ', xyz(0.45, 0.24, 0.02)), (b'gXYZ', xyz(0.36, 0.69, 0.11)),
             (b'bXYZ', xyz(0.1542, 0.07, 0.6949)), (b'rTRC', curve), (b'gTRC', curve), (b'bTRC', curve)]
    at, table, body = 128 + 4 + 12 * len(parts), struct.pack('>I', len(parts)), b''
    for tag, data in parts:
        data += bytes(-len(data) % 4)
        table += tag + struct.pack('>II', at + len(body), len(data))
        body += data
    size = at + len(body)
    head = struct.pack('>I4sI4s4s4s', size, b'\0\0\0\0', 0x02400000, b'mntr', b'RGB ', b'XYZ ')
    head += struct.pack('>6H4s', 2026, 1, 1, 0, 0, 0, b'acsp') + bytes(28) + fixed(0.9642) + fixed(1) + fixed(0.8249)
    return head + bytes(128 - len(head)) + table + body


def apng(width, height, parts, channels=4):
    """A moving picture. Each part is (left, top, width, height, blend); the first covers everything."""
    out = SIGNATURE + chunk(b'IHDR', struct.pack('>IIBBBBB', width, height, 8, COLOUR[channels], 0, 0, 0))
    out += chunk(b'acTL', struct.pack('>II', len(parts), 0))
    number = 0
    for i, (left, top, w, h, blend) in enumerate(parts):
        out += chunk(b'fcTL', struct.pack('>IIIIIHHBB', number, w, h, left, top, 1, 10, 0, blend))
        number += 1
        data = zlib.compress(rows(w, h, channels, i + 1), 1)
        if i == 0:
            out += chunk(b'IDAT', data)
        else:
            out += chunk(b'fdAT', struct.pack('>I', number) + data)
            number += 1
    return out + chunk(b'IEND', b'')
