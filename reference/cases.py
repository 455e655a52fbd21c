#!/usr/bin/env python3
"""Makes cases for the comparison: cases.py [cases] [seed] prints them, one a line, in the form that main.rs reads.

The fixed cases (worked examples and borders) come first and are always there; the random ones follow. The same number and seed give
the same cases."""

import random
import sys

FILE_ROOM = 8192  # words for a set read from a file
DRAW_ROOM = 8192  # the most words that the proved program lends for a drawing
FILE_LIMIT = 65536  # bytes of a file that are looked at
MOST_DRAWS = 255

SAMPLE = bytes.fromhex("5052000300030101" "4c4d01020401" "52430101" "4b4d00010204" "4b4d01010204" "454e")

BORDERS = [7, 8, 9, 15, 16, 17, 31, 32, 33, 63, 64, 65, 127, 128, 129, 191, 192, 193, 255, 256]


def words_of(bits):
    return (bits + 63) // 64


def set_words(n, k, r):
    return (2 * n + 1) * r * words_of(n) + (r + 1) * n * words_of(k)


# --- case lines ---------------------------------------------------------------------------------------------------------------------


def hex_of(data):
    return data.hex() or "-"


def file_case(data):
    return f"file {hex_of(data)}"


def crypt_case(key, block, data):
    return f"crypt {key.to_bytes(32, 'little').hex()} {block.to_bytes(32, 'little').hex()} {hex_of(data)}"


def tape_case(n, k, m, r, room, tape):
    return f"draw {n} {k} {m} {r} {min(room, DRAW_ROOM)} T {hex_of(tape)}"


def grain_case(n, k, m, r, room):
    return f"draw {n} {k} {m} {r} {min(room, DRAW_ROOM)} G"


# --- sets and files -----------------------------------------------------------------------------------------------------------------


class Piece:
    """A part of a file: its kind ('head', 'mark', 'number' or 'row'), its bytes, and for a row how many bits it may have."""

    def __init__(self, kind, data, bits=0):
        self.kind, self.data, self.bits = kind, data, bits


def row_piece(row, bits):
    return Piece("row", row.to_bytes((bits + 7) // 8, "little"), bits)


def numbered(mark, number, rows, bits):
    return [Piece("mark", mark), Piece("number", bytes([number]))] + [row_piece(row, bits) for row in rows]


def head(n, k, m, r):
    return Piece("head", b"PR" + n.to_bytes(2, "big") + k.to_bytes(2, "big") + bytes([m, r]))


def random_matrix(rng, rows, bits):
    return [rng.getrandbits(bits) for _ in range(rows)]


def invertible_matrix(rng, n):
    """The rows of the identity in some order, then some added to others, which never makes them dependent."""
    rows = [1 << j for j in range(n)]
    rng.shuffle(rows)
    for _ in range(rng.choice([0, 1, n, 5 * n])):
        i, j = rng.sample(range(n), 2)
        rows[i] ^= rows[j]
    return rows


def collapsing_matrix(rng, n):
    rows = invertible_matrix(rng, n)
    how = rng.randrange(5)
    i, j = rng.sample(range(n), 2)
    if how == 0:
        rows[i] = 0
    elif how == 1:
        rows[i] = rows[j]
    elif how == 2:  # some row is the sum of others
        rows[i] = 0
        for other in range(n):
            if other != i and rng.random() < 0.5:
                rows[i] ^= rows[other]
    elif how == 3:  # a column of zeros
        rows = [row & ~(1 << i) for row in rows]
    else:
        rows = [0] * n
    return rows


def layer(rng, n, collapse):
    if collapse:
        return collapsing_matrix(rng, n)
    return invertible_matrix(rng, n)


def small_or_border(rng, low, high):
    how = rng.random()
    if how < 0.6:
        return rng.randint(low, min(high, 12))
    if how < 0.85:
        return max(low, min(high, rng.choice(BORDERS)))
    return rng.randint(low, high)


def random_params(rng, fitting=True):
    """Parameters within their limits; if `fitting`, the set has room."""
    while True:
        n, k = small_or_border(rng, 3, 256), small_or_border(rng, 1, 256)
        m = rng.choice([1, n // 3, rng.randint(1, n // 3)])
        r = rng.choice([1, 2, 3, rng.randint(1, 12), rng.randint(1, 255) if n * k < 400 else 2])
        if not fitting or set_words(n, k, r) <= FILE_ROOM:
            return n, k, m, r


def random_pieces(rng, params=None, collapses=0.15):
    """The pieces of a whole file. `collapses` is the chance that layers may collapse at all."""
    n, k, m, r = params or random_params(rng)
    share = rng.choice([1 / r, 0.5, 1]) if rng.random() < collapses else 0
    pieces = [head(n, k, m, r)]
    for i in range(1, r + 1):
        pieces += numbered(b"LM", i, layer(rng, n, rng.random() < share), n)
    for i in range(1, r + 1):
        pieces += numbered(b"RC", i, random_matrix(rng, 1, n), n)
    for i in range(r + 1):
        pieces += numbered(b"KM", i, random_matrix(rng, n, k), k)
    return pieces + [Piece("mark", b"EN")]


def joined(pieces):
    return b"".join(piece.data for piece in pieces)


# --- damage: each takes the pieces, changes some, and may leave them as they were where there is nothing to damage ---------------------


def pick(rng, pieces, kind):
    return rng.choice([piece for piece in pieces if piece.kind == kind] or [Piece("", b"")])


def damage_mark(rng, pieces):
    piece = pick(rng, pieces, "mark")
    marks = [b"PR", b"LM", b"RC", b"KM", b"EN", b"\0\0", b"lm", bytes(2)]
    old = piece.data.ljust(2, b"\0")
    piece.data = rng.choice([rng.choice(marks), old.lower(), old[::-1], old[:1] + rng.randbytes(1), rng.randbytes(1) + old[1:]])


def damage_number(rng, pieces):
    piece = pick(rng, pieces, "number")
    old = piece.data[0] if piece.data else 0
    piece.data = bytes([rng.choice([(old + 1) % 256, (old - 1) % 256, 0, 255, rng.randrange(256)])])


def damage_row(rng, pieces):
    """A bit past the row's own bits, in its last byte, if that has one."""
    rows = [piece for piece in pieces if piece.kind == "row" and piece.bits % 8 and piece.data]
    for piece in rng.sample(rows, min(len(rows), rng.choice([1, 1, 2]))):
        stray = rng.choice([piece.bits % 8, 7, rng.randint(piece.bits % 8, 7)])
        piece.data = piece.data[:-1] + bytes([piece.data[-1] | 1 << stray])


def damage_head(rng, pieces):
    """Parameters out of their limits, or within them but not those of the rest of the file."""
    piece = pick(rng, pieces, "head")
    data = bytearray(piece.data.ljust(8, b"\0"))
    fields = rng.sample(["n", "k", "m", "r"], rng.choice([1, 1, 1, 2]))
    if "n" in fields:
        n = rng.choice([0, 1, 2, 3, 255, 256, 257, 259, 512, 65535, rng.randrange(65536), data[2] * 256 + data[3] + rng.choice([-1, 1])])
        data[2:4] = (n % 65536).to_bytes(2, "big")
    if "k" in fields:
        k = rng.choice([0, 1, 256, 257, 512, 65535, rng.randrange(65536), data[4] * 256 + data[5] + rng.choice([-1, 1])])
        data[4:6] = (k % 65536).to_bytes(2, "big")
    if "m" in fields:
        n = data[2] * 256 + data[3]
        data[6] = rng.choice([0, n // 3 % 256, (n // 3 + 1) % 256, 85, 86, 255, rng.randrange(256)])
    if "r" in fields:
        data[7] = rng.choice([0, 255, (data[7] + 1) % 256, (data[7] - 1) % 256, rng.randrange(256)])
    piece.data = bytes(data)


def damage_head_mark(rng, pieces):
    piece = pick(rng, pieces, "head")
    piece.data = rng.choice([b"pr", b"RP", b"PX", b"XR", b"EN", b"LM", rng.randbytes(2)]) + piece.data[2:]


def damage_order(rng, pieces):
    """Pieces lost, doubled or exchanged."""
    if len(pieces) < 3:
        return
    i, j = rng.sample(range(1, len(pieces)), 2)
    how = rng.randrange(3)
    if how == 0:
        del pieces[i : i + rng.randint(1, 5)]
    elif how == 1:
        pieces.insert(i, pieces[j])
    else:
        pieces[i], pieces[j] = pieces[j], pieces[i]


def damage_end(rng, pieces):
    """Bytes after the end."""
    more = [b"\0", b"E", b"EN", SAMPLE, rng.randbytes(rng.randint(1, 20)), bytes(rng.randint(1, 300))]
    pieces.append(Piece("rest", rng.choice(more)))


def damage_bytes(rng, pieces):
    for _ in range(rng.choice([1, 1, 2, 5])):
        piece = rng.choice(pieces)
        if piece.data:
            place = rng.randrange(len(piece.data))
            changed = piece.data[place] ^ rng.choice([1 << rng.randrange(8), rng.randint(1, 255)])
            piece.data = piece.data[:place] + bytes([changed]) + piece.data[place + 1 :]


def damage_cut(rng, pieces):
    """The file ends early: anywhere, in its header, or within or beside one of its pieces, short ones as likely as long ones."""
    how = rng.random()
    length = len(joined(pieces))
    if how < 0.2:
        cut = rng.randint(0, min(9, length))
    elif how < 0.4:
        cut = rng.randint(0, length)
    elif how < 0.5:
        cut = max(0, length - rng.randint(1, 4))
    else:
        kind = rng.choice(["mark", "number", "row"])
        places = [i for i, piece in enumerate(pieces) if piece.kind == kind] or [0]
        last = rng.choice(places)
        cut = len(joined(pieces[:last])) + rng.randint(0, len(pieces[last].data))
    data = joined(pieces)[:cut]
    pieces[:] = [Piece("cut", data)]


DAMAGES = [damage_mark, damage_number, damage_row, damage_head, damage_head_mark, damage_order, damage_end, damage_bytes]
WEIGHTS = [3, 3, 4, 3, 1, 2, 2, 2]


def damaged(rng, pieces):
    for damage in rng.choices(DAMAGES, WEIGHTS, k=rng.choice([0, 1, 1, 1, 2, 3, 5])):
        damage(rng, pieces)
    if rng.random() < 0.45:  # last, because what is left has no pieces
        damage_cut(rng, pieces)
    return joined(pieces)


def random_sample_file(rng):
    """The sample with some bytes changed, so short that every kind of fault is met, cut off or with bytes after its end."""
    data = bytearray(SAMPLE)
    for _ in range(rng.randint(0, 3)):
        data[rng.randrange(8 if rng.random() < 0.9 else 0, len(data))] ^= rng.choice([1, 2, 4, 8, 16, 128, rng.randint(1, 255)])
    if rng.random() < 0.6:
        return bytes(data[: rng.randint(8, len(data))])
    return bytes(data) + rng.randbytes(rng.choice([0, 0, 1, 2]))


def random_file(rng):
    how = rng.random()
    if how < 0.08:
        return random_sample_file(rng)
    if how < 0.2:
        return joined(random_pieces(rng, collapses=0.6))
    if how < 0.25:  # mostly too large for the room; cut, so that the case stays short
        n, k, m, r = rng.choice([random_params(rng, fitting=False), (rng.randint(65, 256), rng.randint(1, 256), 1, rng.randint(4, 255))])
        return (head(n, k, m, r).data + b"LM\1" + rng.randbytes(100))[: rng.choice([7, 8, 9, 10, 60])]
    if how < 0.3:
        data = head(*random_params(rng)).data + rng.randbytes(rng.randint(0, 60))
        return rng.choice([data, rng.randbytes(rng.randint(0, 40))])
    if how < 0.36:  # layers of random bits, of which most collapse
        n, k, m, r = random_params(rng)
        pieces = random_pieces(rng, (n, k, m, r), 0)
        for piece in pieces[1 : 1 + r * (n + 2)]:
            if piece.kind == "row":
                piece.data = row_piece(rng.getrandbits(n), n).data
        return joined(pieces)
    if how < 0.45:  # a stray bit or a collapse, and an end that comes too early or too late
        pieces = random_pieces(rng, collapses=1)
        rng.choice([damage_row, damage_end, damage_order])(rng, pieces)
        rng.choice([damage_cut, damage_end])(rng, pieces)
        return joined(pieces)
    return damaged(rng, random_pieces(rng, collapses=0.2))


def room_borders():
    """Parameters whose sets need just the room, or one word more."""
    found = {}
    for n in range(3, 257):
        for k in range(1, 257, 64):
            for r in range(1, 256):
                need = set_words(n, k, r)
                if need in (FILE_ROOM, FILE_ROOM + 1):
                    found.setdefault(need, []).append((n, k, 1, r))
                if need > FILE_ROOM + 1:
                    break
    return [params for need in sorted(found) for params in found[need]]


def fixed_files(rng):
    yield b""
    for cut in range(len(SAMPLE) + 1):
        yield SAMPLE[:cut]
    for place in range(len(SAMPLE)):
        for change in (1, 2, 8, 0x20, 0x80):
            yield SAMPLE[:place] + bytes([SAMPLE[place] ^ change]) + SAMPLE[place + 1 :]
    yield SAMPLE[:11] + bytes([1, 1, 4]) + SAMPLE[14:]
    for mark in (8, 14, 18, 24, 30):  # half a mark, a whole one that is wrong, and a wrong number, with nothing after
        for end in (b"X", b"E", b"XX", b"LM\2", b"RC\2", b"KM\2", b"KM\0\x08"):
            yield SAMPLE[:mark] + end
    for more in (b"\0", b"E", b"EN", SAMPLE):
        yield SAMPLE + more
    yield SAMPLE + bytes(FILE_LIMIT - len(SAMPLE))
    yield SAMPLE + bytes(FILE_LIMIT)
    for n, k, m, r in [(2, 3, 1, 1), (3, 0, 1, 1), (3, 3, 0, 1), (3, 3, 2, 1), (3, 3, 1, 0), (257, 1, 1, 1), (256, 257, 1, 1),
                       (256, 256, 86, 1), (256, 256, 85, 1), (256, 256, 85, 255), (3, 1, 1, 255), (65535, 65535, 255, 255)]:
        yield head(n, k, m, r).data
        yield head(n, k, m, r).data + b"XX"
    for params in room_borders()[:: max(1, len(room_borders()) // 12)]:
        yield joined(random_pieces(rng, params, 0))
        yield head(*params).data
    for params in [(3, 1, 1, 255), (256, 256, 85, 1), (256, 1, 85, 3), (255, 255, 85, 1), (65, 129, 21, 5), (128, 128, 10, 8)]:
        yield joined(random_pieces(rng, params, 0))
        yield joined(random_pieces(rng, params, 1))


# --- keys and blocks ----------------------------------------------------------------------------------------------------------------


def random_vector(rng, bits):
    return rng.choice([0, 1, (1 << bits) - 1, 1 << rng.randrange(bits)] + 6 * [rng.getrandbits(bits)])


def random_crypt(rng):
    n, k, m, r = params = random_params(rng)
    pieces = random_pieces(rng, params, 0.05)
    data = damaged(rng, pieces) if rng.random() < 0.06 else joined(pieces)
    key, block = random_vector(rng, k), random_vector(rng, n)
    if rng.random() < 0.12:
        key |= 1 << min(255, rng.choice([k, 64 * words_of(k) - 1, 64 * words_of(k), rng.randint(k, 256)]))
    if rng.random() < 0.12:
        block |= 1 << min(255, rng.choice([n, 64 * words_of(n) - 1, 64 * words_of(n), rng.randint(n, 256)]))
    if rng.random() < 0.1:  # words past those of the key and the block, which are not taken
        key |= rng.getrandbits(256) >> 64 * words_of(k) << 64 * words_of(k)
        block |= rng.getrandbits(256) >> 64 * words_of(n) << 64 * words_of(n)
    return crypt_case(key, block, data)


def fixed_crypts(rng):
    for key in range(8):
        for block in range(8):
            yield crypt_case(key, block, SAMPLE)
    for key, block in [(8, 0), (0, 8), (8, 8), (1 << 63, 0), (0, 1 << 63), (1 << 64, 0), (0, 1 << 64), (1 << 64, 1 << 255)]:
        yield crypt_case(key, block, SAMPLE)
    yield crypt_case(8, 8, SAMPLE[:-1])
    yield crypt_case(0, 0, b"")
    yield crypt_case(0, 0, SAMPLE[:11] + bytes([1, 1, 4]) + SAMPLE[14:])
    for n, k in [(3, 65), (65, 3), (130, 70), (70, 130), (3, 250), (250, 3)]:  # bits astray in both: the key comes first
        data = joined(random_pieces(rng, (n, k, 1, 1), 0))
        yield crypt_case(1 << k, 1 << n, data)
        yield crypt_case(1 << k | 1 << 64 * words_of(k) - 1, (1 << 256) - 1, data)
    for n, k in [(3, 1), (63, 65), (64, 64), (65, 63), (127, 129), (128, 128), (129, 127), (192, 193), (255, 256), (256, 255), (256, 256)]:
        for r in (1, 2):
            if set_words(n, k, r) <= FILE_ROOM:
                data = joined(random_pieces(rng, (n, k, n // 3, r), 0))
                yield crypt_case(rng.getrandbits(k), rng.getrandbits(n), data)
                yield crypt_case((1 << k) - 1, (1 << n) - 1, data)
                if k % 64:
                    yield crypt_case(1 << k, 0, data)
                if n % 64:
                    yield crypt_case(0, 1 << n, data)


# --- drawings -----------------------------------------------------------------------------------------------------------------------


def bytes_of_bits(bits):
    """A tape of these bits, the lowest bit of each byte first; the last byte is filled up with zeros."""
    number = 0
    for place, bit in enumerate(bits):
        number |= bit << place
    return number.to_bytes((len(bits) + 7) // 8, "little")


def bits_of_rows(rows, length):
    return [row >> j & 1 for row in rows for j in range(length)]


def independent_rows(rng, n, k):
    """n independent rows of k bits: the first n columns are a matrix that can be inverted, then the columns are mixed."""
    rows = [row | rng.getrandbits(k) >> n << n for row in invertible_matrix(rng, n)]
    order = rng.sample(range(k), k)
    return [sum((row >> j & 1) << order[j] for j in range(k)) for row in rows]


def dependent_rows(rng, n, k):
    rows = independent_rows(rng, n, k)
    i, j = rng.sample(range(n), 2)
    rows[i] = rng.choice([0, rows[j], rows[i - 1] ^ rows[i - 2] if n > 3 else 0])
    return rows


def planned_bits(rng, n, k, r, fails):
    """The bits of a drawing in which each matrix fails as often as `fails` says, and is then kept (or, at 255, never is)."""
    bits = []
    for _ in range(r):
        for _ in range(fails()):
            bits += bits_of_rows(collapsing_matrix(rng, n), n)
        bits += bits_of_rows(invertible_matrix(rng, n), n)
    bits += [rng.getrandbits(1) for _ in range(r * n)]
    for _ in range(r + 1):
        for _ in range(fails()):
            bits += bits_of_rows(dependent_rows(rng, n, k), k)
        bits += bits_of_rows(independent_rows(rng, n, k), k)
    return bits


def small_draw_params(rng, most=10):
    n = rng.randint(3, most)
    k = rng.choice([n, n, n + 1, n + rng.randint(0, 6), rng.randint(n, 70)])
    return n, k, rng.randint(1, n // 3), rng.choice([1, 1, 2, 3, rng.randint(1, 8)])


def random_room(rng, n, k, r):
    need = set_words(n, k, r)
    return min(65535, need + rng.choice([0, 0, 1, 2, 9]))


def random_tape(rng):
    n, k, m, r = small_draw_params(rng)
    room = random_room(rng, n, k, r)
    how = rng.random()
    if how < 0.3:  # random bits; the longest tapes are often enough, the others run dry at any stage
        usual = (3.5 * r * n * n + r * n + (3.5 if k < n + 2 else 1.3) * (r + 1) * n * k) / 8
        tape = rng.randbytes(int(rng.uniform(0, 1.6) * usual))
    elif how < 0.45:  # bits that are mostly 0 or mostly 1
        share = rng.choice([0.02, 0.1, 0.2, 0.8, 0.9, 0.98])
        tape = bytes_of_bits([int(rng.random() < share) for _ in range(rng.randint(0, 8 * n * n * (r + 2)))])
    elif how < 0.75:  # planned failures, cut anywhere or with more at the end
        bits = planned_bits(rng, n, k, r, lambda: rng.choice([0, 0, 0, 1, 2, 5]))
        if rng.random() < 0.5:
            bits = bits[: rng.randint(0, len(bits))]
        tape = bytes_of_bits(bits + [rng.getrandbits(1) for _ in range(rng.choice([0, 0, 1, 8, 40]))])
    elif how < 0.9:  # a drawing that goes well for a while and then meets only zeros or ones
        n, k, m, r = small_draw_params(rng, 5)
        k = min(k, n + 3)
        room = random_room(rng, n, k, r)
        bits = planned_bits(rng, n, k, r, lambda: rng.choice([0, 0, 1]))
        bits = bits[: rng.randint(0, len(bits))]
        more = rng.choice([MOST_DRAWS * n * n, MOST_DRAWS * n * k, (MOST_DRAWS + 1) * n * k])
        tape = bytes_of_bits(bits + [rng.getrandbits(1)] * (more + rng.choice([0, 0, 1, 8, -1, -8, rng.randint(0, n * k)])))
    else:  # failures to the limit: 254 are borne, 255 are not
        n, k, m, r = small_draw_params(rng, 4)
        k, r = min(k, n + 2), min(r, 2)
        room = random_room(rng, n, k, r)
        limit = rng.choice([MOST_DRAWS - 1, MOST_DRAWS])
        at = [rng.randrange(2 * r + 1)]
        tape = bytes_of_bits(planned_bits(rng, n, k, r, lambda: limit if at.append(0) or len(at) - 2 == at[0] else 0))
    return tape_case(n, k, m, r, room, tape)


def random_early_refusal(rng):
    """Drawings that are refused before a bit is taken, often for more than one reason."""
    n, k, m, r = small_draw_params(rng)
    room = random_room(rng, n, k, r)
    if rng.random() < 0.4:
        k = rng.choice([n - 1, 1, rng.randint(1, n)])
    if rng.random() < 0.4:
        room = rng.choice([0, 1, max(0, set_words(n, k, r) - 1), rng.randrange(set_words(n, k, r))])
    if rng.random() < 0.4:
        which = rng.randrange(4)
        if which == 0:
            n = rng.choice([0, 1, 2, 257, 256, 65535, rng.randrange(65536)])
        elif which == 1:
            k = rng.choice([0, 257, 256, 65535, rng.randrange(65536)])
        elif which == 2:
            m = rng.choice([0, n // 3 + 1, 86, 255, 256, 257, 21846, 65535, rng.randrange(65536)])
        else:
            r = rng.choice([0, 255, 256, 257, 65535, rng.randrange(65536)])
    room = min(room, 3000)
    tape = rng.randbytes(rng.choice([0, 1, 2, 30]))
    return grain_case(n, k, m, r, room) if rng.random() < 0.2 else tape_case(n, k, m, r, room, tape)


def random_grain(rng):
    n = rng.randint(3, 40) if rng.random() < 0.5 else rng.randint(3, 14)
    k = min(40, rng.choice([n, n, n + 1, rng.randint(n, 40)]))
    r = rng.choice([1, 1, 2, 3, rng.randint(1, 10)])
    return grain_case(n, k, rng.randint(1, n // 3), r, random_room(rng, n, k, r))


def fixed_drawings(rng):
    yield tape_case(3, 3, 1, 1, 13, b"\0")
    yield tape_case(3, 3, 1, 1, 20, bytes(287))
    yield tape_case(3, 3, 1, 1, 20, bytes(286))
    yield tape_case(4, 3, 1, 1, 20, b"\1")
    for length in (509, 510, 511):  # n = 4: the last failing draw ends with a byte
        yield tape_case(4, 4, 1, 1, 23, bytes(length))
        yield tape_case(4, 4, 1, 1, 23, b"\xff" * length)
    for n, k, r in [(3, 3, 1), (3, 4, 2), (4, 4, 1)]:
        for matrix in range(2 * r + 1):
            for limit in (MOST_DRAWS - 1, MOST_DRAWS):
                count = iter(range(2 * r + 1))
                bits = planned_bits(rng, n, k, r, lambda: limit if next(count) == matrix else 0)
                yield tape_case(n, k, 1, r, set_words(n, k, r) + 2, bytes_of_bits(bits))
    bits = planned_bits(rng, 3, 3, 1, lambda: 1)
    for length in range(len(bits) // 8 + 2):
        yield tape_case(3, 3, 1, 1, 15, bytes_of_bits(bits + [1] * 16)[:length])
    for room in (0, 1, 12, 13, 14):
        yield tape_case(3, 3, 1, 1, room, rng.randbytes(60))
        yield grain_case(3, 3, 1, 1, room)
    for n, k, r in [(64, 64, 1), (64, 65, 1), (65, 65, 1), (65, 128, 2), (63, 200, 1), (128, 128, 1), (128, 129, 2), (3, 256, 3), (3, 3, 255)]:
        need = set_words(n, k, r)
        yield grain_case(n, k, n // 3, r, need)
        yield grain_case(n, k, n // 3, r, need + 3)
        if n < 100:
            yield grain_case(n, k, n // 3, r, need - 1)
            yield tape_case(n, k, 1, r, need, bytes_of_bits(planned_bits(rng, n, k, min(r, 20), lambda: 0)))
    usual = (9, 12, 2, 2)  # one parameter at a time beside its limits, and where fewer bits would make it lawful
    for place, values in enumerate([(0, 2, 3, 5, 6, 256, 257, 265, 65535), (0, 1, 8, 9, 256, 257, 268, 65535),
                                    (0, 1, 3, 4, 86, 256, 257, 258, 21846, 21847, 65535), (0, 1, 255, 256, 257, 258, 65535)]):
        for value in values:
            params = usual[:place] + (value,) + usual[place + 1 :]
            yield tape_case(*params, 200, b"\1\2\3")
            yield tape_case(*params, 8192 if place == 3 else 0, b"\1\2\3")
    yield tape_case(3, 256, 1, 1, 100, rng.randbytes(300))
    yield tape_case(256, 256, 85, 255, 65535, b"\1")
    yield tape_case(256, 256, 85, 1, 4100, rng.randbytes(4000))
    yield tape_case(65535, 65535, 65535, 65535, 5, b"\1")


# --- all together -------------------------------------------------------------------------------------------------------------------


def fixed_cases(rng):
    yield from map(file_case, fixed_files(rng))
    yield from fixed_crypts(rng)
    yield from fixed_drawings(rng)


def random_case(rng):
    how = rng.random()
    if how < 0.35:
        return file_case(random_file(rng))
    if how < 0.6:
        return random_crypt(rng)
    if how < 0.88:
        return random_tape(rng)
    if how < 0.94:
        return random_early_refusal(rng)
    return random_grain(rng)


def cases(count, seed):
    """The first `count` cases of this seed."""
    rng = random.Random(seed)
    made = list(fixed_cases(rng))[:count]
    while len(made) < count:
        made.append(random_case(rng))
    return made


if __name__ == "__main__":
    numbers = [int(word) for word in sys.argv[1:]]
    for line in cases(*(numbers + [2000, 1][len(numbers) :])):
        print(line)
