"""The codes of TIA-102.BAAA, each decoded by its definition: the nearest codeword by search, or by linear equations.

Bits are texts of the characters 0 and 1, words are numbers, and symbols of Reed-Solomon codes are numbers below 64.
"""
from functools import lru_cache
from operator import add, itemgetter

SYNC = 0x5575F5FF77FF


def bits_of(number, width):
    """Returns the bits of a number, the highest first."""
    return format(number, '0%db' % width) if width else ''


def number_of(bits):
    return int(bits, 2) if bits else 0


def cut_up(text, size):
    return [text[place:place + size] for place in range(0, len(text), size)]


def distance(one, other):
    return (one ^ other).bit_count()


def remainder(number, divisor, degree):
    """Returns the rest of number times x^degree by a divisor of that degree, as polynomials over GF(2)."""
    number <<= degree
    while number.bit_length() > degree:
        number ^= divisor << number.bit_length() - 1 - degree
    return number


# Checks: the rest by the generator, in which all bits are inverted.

def check_by(divisor, degree):
    return lambda bits: remainder(number_of(bits), divisor, degree) ^ (1 << degree) - 1


crc_9, crc_16, crc_32 = check_by(0b1001011001, 9), check_by(0x11021, 16), check_by(0x104C11DB7, 32)


# The network identifier (NID): BCH (63,16), the nearest of its 65,536 codewords, and a bit after them.

BCH_GENERATOR = int('6331141367235453', 8)


def bch_word(data):
    return data << 47 | remainder(data, BCH_GENERATOR, 47)


def bch_nearest(word):
    """Returns the 16 bits of data of the codeword within 11 bit errors, or None. Two codewords differ in 23 bits at least, so there is at most one."""
    if distance(bch_word(word >> 47), word) <= 11:
        return word >> 47
    return bch_search(word)


@lru_cache(maxsize=1)
def bch_words():
    return [bch_word(data) for data in range(65536)]


@lru_cache(maxsize=65536)
def bch_search(word):
    return near(bch_words(), word, 11)


# Golay (24,12) and (18,6), Hamming (10,6), and the (16,8) code: tables of all codewords, and the correctable one.

def golay_word(data):
    word = data << 11 | remainder(data, 0xC75, 11)
    return word << 1 | word.bit_count() & 1


def hamming_word(data):
    word = data << 4
    for place, check in enumerate((0b1110, 0b1101, 0b1011, 0b0111, 0b0011, 0b1100)):
        if data >> (5 - place) & 1:
            word ^= check
    return word


def low_speed_word(data):
    return data << 8 | remainder(data, 0b100111001, 8)


GOLAY_24 = [golay_word(data) for data in range(4096)]
GOLAY_18 = GOLAY_24[:64]
HAMMING_10 = [hamming_word(data) for data in range(64)]
LOW_SPEED = [low_speed_word(data) for data in range(256)]


def near(words, word, most):
    """Returns the data of the one codeword of a list within `most` bit errors, or None."""
    counts = list(map(int.bit_count, map(word.__xor__, words)))
    least = min(counts)
    return counts.index(least) if least <= most else None


def reader(words, most):
    return lru_cache(maxsize=100000)(lambda word: near(words, word, most))


golay_24, golay_18, hamming_10, low_speed_16 = reader(GOLAY_24, 3), reader(GOLAY_18, 3), reader(HAMMING_10, 1), reader(LOW_SPEED, 2)


# GF(64) by x^6 + x + 1.

POWERS = [1]
while len(POWERS) < 63:
    POWERS.append(POWERS[-1] << 1 ^ (0b1000011 if POWERS[-1] & 32 else 0))
LOGARITHMS = {power: place for place, power in enumerate(POWERS)}


def times(one, other):
    return POWERS[(LOGARITHMS[one] + LOGARITHMS[other]) % 63] if one and other else 0


def inverse(one):
    return POWERS[-LOGARITHMS[one] % 63]


def value_at(polynomial, point):
    """Returns the value of a polynomial, the lowest coefficient first."""
    value = 0
    for coefficient in reversed(polynomial):
        value = times(value, point) ^ coefficient
    return value


def null_vector(rows, width):
    """Returns a solution, not all zero, of the equations that each row times the solution is zero, or None. By Gaussian elimination."""
    rows = [list(row) for row in rows]
    pivots = []
    for column in range(width):
        found = next((place for place in range(len(pivots), len(rows)) if rows[place][column]), None)
        if found is None:
            answer = [0] * width
            answer[column] = 1
            for place, pivot in enumerate(pivots):
                answer[pivot] = rows[place][column]
            return answer
        here = len(pivots)
        rows[here], rows[found] = rows[found], rows[here]
        scale = inverse(rows[here][column])
        rows[here] = [times(scale, entry) for entry in rows[here]]
        for place, row in enumerate(rows):
            if place != here and row[column]:
                factor = row[column]
                rows[place] = [entry ^ times(factor, own) for entry, own in zip(row, rows[here])]
        pivots.append(column)
    return None


# Reed-Solomon: a codeword of n symbols, the first the highest coefficient, is divided by each x - a^i for i from 1 to n - k. So the symbol of x^j is Z(a^j)
# g(a^j); Z is the product of all x - a^m for m from n to 62, and g has a degree below k.

@lru_cache(maxsize=None)
def places_of(size):
    points = [POWERS[size - 1 - place] for place in range(size)]
    scales = []
    for point in points:
        scale = 1
        for other in range(size, 63):
            scale = times(scale, point ^ POWERS[other])
        scales.append(scale)
    return points, scales


@lru_cache(maxsize=None)
def unit_word(size, data, place):
    """Returns the codeword whose data is 1 at one position and 0 at all others, by a polynomial through the values of the data."""
    points, scales = places_of(size)
    wanted = inverse(scales[place])
    word = []
    for point, scale in zip(points, scales):
        value = times(scale, wanted)
        for other in range(data):
            if other != place:
                value = times(value, times(point ^ points[other], inverse(points[place] ^ points[other])))
        word.append(value)
    return word


def reed_solomon_word(symbols, size):
    """Returns the codeword whose first symbols are the data."""
    word = [0] * size
    for place, symbol in enumerate(symbols):
        word = [known ^ times(symbol, own) for known, own in zip(word, unit_word(size, len(symbols), place))]
    return word


def reed_solomon_near(received, data):
    """Returns the data of the codeword for which twice the wrong symbols, and the erased ones (None), are at most n - k together, or None.

    It is found by the equations of Berlekamp and Welch: E(p) y = Q(p) at each position that is not erased.
    """
    size = len(received)
    kept = [place for place in range(size) if received[place] is not None]
    most = (size - data - (size - len(kept))) // 2
    if size - len(kept) > size - data:
        return None

    def fits(word):
        return sum(word[place] != received[place] for place in kept) <= most

    if None not in received[:data]:
        word = reed_solomon_word(received[:data], size)
        if fits(word):
            return word[:data]
    points, scales = places_of(size)
    rows = []
    for place in kept:
        powers = [1]
        while len(powers) < data + most:
            powers.append(times(powers[-1], points[place]))
        seen = times(received[place], inverse(scales[place]))
        rows.append([times(seen, power) for power in powers[:most + 1]] + powers)
    # If no symbol may be wrong, E is 1, and the powers have to be as many as the data.
    answer = null_vector(rows, most + 1 + data + most)
    if answer is None:
        return None
    locator, product = answer[:most + 1], answer[most + 1:]
    quotient = divided(product, locator)
    if quotient is None or len(quotient) > data:
        return None
    word = [times(scale, value_at(quotient, point)) for point, scale in zip(points, scales)]
    return word[:data] if fits(word) else None


def divided(product, divisor):
    """Returns the quotient of two polynomials, the lowest coefficient first, or None if a rest remains."""
    product, divisor = trimmed(product), trimmed(divisor)
    if not divisor:
        return None
    quotient = [0] * max(0, len(product) - len(divisor) + 1)
    scale = inverse(divisor[-1])
    for place in range(len(quotient) - 1, -1, -1):
        quotient[place] = times(product[place + len(divisor) - 1], scale)
        for other, entry in enumerate(divisor):
            product[place + other] ^= times(quotient[place], entry)
    return None if any(product) else quotient


def trimmed(polynomial):
    polynomial = list(polynomial)
    while polynomial and polynomial[-1] == 0:
        polynomial.pop()
    return polynomial


# The trellises: a table of points by the state and the symbol, which is the next state, and the four bits of each point.

POINT_BITS = [0b0010, 0b1010, 0b0111, 0b1111, 0b1110, 0b0110, 0b1011, 0b0011, 0b1101, 0b0101, 0b1000, 0b0000, 0b0001, 0b1001, 0b0100, 0b1100]
AWAY = [[distance(point, four) for point in POINT_BITS] for four in range(16)]
HALF = [[0, 15, 12, 3], [4, 11, 8, 7], [13, 2, 1, 14], [9, 6, 5, 10]]
THREE_QUARTERS = [[0, 8, 4, 12, 2, 10, 6, 14], [4, 12, 2, 10, 6, 14, 0, 8], [1, 9, 5, 13, 3, 11, 7, 15], [5, 13, 3, 11, 7, 15, 1, 9],
                  [3, 11, 7, 15, 1, 9, 5, 13], [7, 15, 1, 9, 5, 13, 3, 11], [2, 10, 6, 14, 0, 8, 4, 12], [6, 14, 0, 8, 4, 12, 2, 10]]
# The positions of the four bits of each step of the path: the first thirteen are every fourth, and so on.
SENT_AT = [13 * (step % 4) - max(0, step % 4 - 1) + step // 4 for step in range(49)]


@lru_cache(maxsize=20000)
def trellis_word(three_quarters, bits):
    """Returns the 196 bits of a block: its symbols and one of zeros, as points of the path, interleaved."""
    table, width = (THREE_QUARTERS, 3) if three_quarters else (HALF, 2)
    sent = [0] * 49
    state = 0
    for step, symbol in enumerate(cut_up(bits, width) + ['0']):
        sent[SENT_AT[step]] = POINT_BITS[table[state][int(symbol, 2)]]
        state = int(symbol, 2)
    return ''.join(bits_of(four, 4) for four in sent)


@lru_cache(maxsize=20000)
def trellis_nearest(three_quarters, received):
    """Returns the data of the path that differs least from 196 bits; of several such paths the first in the order of lists of symbols."""
    table, width = (THREE_QUARTERS, 3) if three_quarters else (HALF, 2)
    # away[step][point] is the distance of a point; least[step][state] the least distance of a path from a state at a step to the end.
    away = [AWAY[int(received[4 * place:4 * place + 4], 2)] for place in SENT_AT]
    rows = [itemgetter(*row) for row in table]
    least = [[away[48][row[0]] for row in table]]
    for step in range(47, -1, -1):
        least.insert(0, [min(map(add, row(away[step]), least[0])) for row in rows])
    state, symbols = 0, []
    for step in range(48):
        state = list(map(add, rows[state](away[step]), least[step + 1])).index(least[step][state])
        symbols.append(bits_of(state, width))
    return ''.join(symbols)
