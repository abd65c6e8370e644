"""Recordings of levels: their nearest bits, and the blocks of packets that are decoded from the levels."""
from codes import HALF, POINT_BITS, SENT_AT, THREE_QUARTERS, bits_of, cut_up
from recordings import blocks_of, head_of, items, octets_of, statuses, with_status, without_status

NOMINAL = [32, 96, -32, -96]


def levels_of(data):
    levels = [octet - 256 if octet > 127 else octet for octet in data]
    return levels + [32] * (-len(levels) % 4)


def hard(level):
    return '01' if level >= 64 else '00' if level >= 0 else '10' if level >= -64 else '11'


def without_status_levels(levels):
    return [level for piece in cut_up(levels, 36) for level in piece[:35]]


def trellis_from(three_quarters, levels):
    """Returns the 196 bits of the first path whose nominal levels are nearest to 98 levels, by the sum of squares."""
    table = THREE_QUARTERS if three_quarters else HALF

    def cost(step, state, symbol):
        four = POINT_BITS[table[state][symbol]]
        high, low = levels[2 * SENT_AT[step]:2 * SENT_AT[step] + 2]
        return (high - NOMINAL[four >> 2]) ** 2 + (low - NOMINAL[four & 3]) ** 2

    least = [[cost(48, state, 0) for state in range(len(table))]]
    for step in range(47, -1, -1):
        least.insert(0, [min(cost(step, state, symbol) + least[0][symbol] for symbol in range(len(table))) for state in range(len(table))])
    sent, state = [None] * 49, 0
    for step in range(49):
        rest = least[step + 1] if step < 48 else [0]
        choice = [cost(step, state, symbol) + rest[symbol] for symbol in range(len(rest))]
        symbol = choice.index(min(choice))
        sent[SENT_AT[step]] = POINT_BITS[table[state][symbol]]
        state = symbol
    return ''.join(bits_of(four, 4) for four in sent)


def softened(item, levels):
    """Returns the bits of a packet, with its failing blocks decoded from its levels."""
    payload, bare = without_status(item.raw), without_status_levels(levels)
    count = blocks_of(head_of(payload[:308]))
    for block in range(count):
        whole = 'packet_crc' in item.field
        if whole or 'block.%d' % block in item.field:
            place = 308 + 196 * block
            payload = payload[:place] + trellis_from(not whole, bare[place // 2:place // 2 + 98]) + payload[place + 196:]
    return with_status(payload, statuses(item.raw))


def soft(data):
    levels = levels_of(data)
    bits = ''.join(map(hard, levels))
    parts = []
    for item in items(bits):
        raw = bits[item.at:item.at + item.bits]
        if item.at % 2 == 0 and item.word == 'broken' and item.duid == 12 and item.field != ['format']:
            raw = softened(item, levels[item.at // 2:(item.at + item.bits) // 2])
        parts.append(raw)
    return octets_of(''.join(parts)), 0, ''
