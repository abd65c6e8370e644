#!/usr/bin/env python3
"""Compares the codes of this folder with codewords from outside.

usage: second/outside.py        prints each difference, and how many codewords there are

A row is a code, a received word, and what it decodes to: `Found`, the codeword and the number of errors, or `Beyond`. Programs and libraries that have
nothing to do with this project made and checked the rows. Words of binary codes are hexadecimal numbers; words of Reed-Solomon codes have two octal digits
for each symbol, the first symbol first.
"""
import sys

sys.dont_write_bytecode = True
# pylint: disable=wrong-import-position
import codes

ROWS = [
    'bch63 656ACE21992B8104 Found 446ACE21910B8115 6',
    'bch63 7FF0000000000000 Found 0000000000000000 11',
    'bch63 43B78B0CDB175F9C Beyond',
    'golay24 05F20F Found 85F40F 3',
    'golay24 94AE25 Found 8CBE25 3',
    'golay24 99CDC7 Beyond',
    'golay18 2BA9A Found 2BADE 2',
    'golay18 2FD08 Found 1ED08 3',
    'golay18 22CC8 Beyond',
    'lsd16 0CF5 Found 08F1 2',
    'lsd16 D6D4 Found DED5 2',
    'lsd16 8A18 Beyond',
    'hamming10 2BD Found 2FD 1',
    'hamming10 379 Found 37B 1',
    'hamming10 0BB Beyond',
    'rs36_20 705763040305474731133264110705632477532103723507563206555315342632276641 Found 705763040305474731133264110705632472532103723507563206555115342332276641 3',
    'rs36_20 660625573120222010135302235553062704027367413061650364234754741551050455 Found 660625573120222010135302235553232743025767463061650364403554741551051162 8',
    'rs36_20 426505302417372223235750031730421606360554162355116451037016142621100144 Beyond',
    'rs24_12 121437365722300306546631542701657736525227476351 Found 121437362022300306546631541201657736522327476351 3',
    'rs24_12 024246321455527065014554330072544735100120774421 Found 027246321455520765014554330072542035100112424461 6',
    'rs24_12 356121332636032303770451165643677703102512664477 Beyond',
    'rs24_16 566673365132672555416510457166227570175644651250 Found 566673365132672555416510457127227570175644651050 2',
    'rs24_16 775062123411020150613227351427012610207743333621 Found 775062453411020150613227351427012600367762333621 4',
    'rs24_16 752655166353361004241352144402540604254607260550 Beyond',
]

# By code: the decoder, and the encoder of what it returns.
BINARY = {
    'bch63': (codes.bch_nearest, codes.bch_word),
    'golay24': (codes.golay_24, codes.golay_word),
    'golay18': (codes.golay_18, codes.golay_word),
    'hamming10': (codes.hamming_10, codes.hamming_word),
    'lsd16': (codes.low_speed_16, codes.low_speed_word),
}


def decoded(code, received):
    """Returns the words of a row after the received one."""
    if code in BINARY:
        decoder, encoder = BINARY[code]
        word = int(received, 16)
        data = decoder(word)
        return ['Beyond'] if data is None else ['Found', '%0*X' % (len(received), encoder(data)), str(codes.distance(encoder(data), word))]
    size, data = map(int, code[2:].split('_'))
    symbols = [int(digits, 8) for digits in codes.cut_up(received, 2)]
    found = codes.reed_solomon_near(symbols, data)
    if found is None:
        return ['Beyond']
    word = codes.reed_solomon_word(found, size)
    return ['Found', ''.join('%02o' % symbol for symbol in word), str(sum(one != other for one, other in zip(word, symbols)))]


def main():
    differences = 0
    for row in ROWS:
        code, received, *wanted = row.split()
        answer = decoded(code, received)
        if answer != wanted:
            differences += 1
            print('%s %s: here %s, there %s' % (code, received, ' '.join(answer), ' '.join(wanted)))
    print('%d codewords from outside, %d differences' % (len(ROWS), differences))
    return 1 if differences else 0


if __name__ == '__main__':
    sys.exit(main())
