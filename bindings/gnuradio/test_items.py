"""Tests the block for GNU Radio without a screen, by pytest: `bindings/gnuradio_test` runs it.

Dibits and soft symbols of 50 damaged recordings go through flowgraphs in random chunks, and the messages are compared with the lines of
`p25 show` and `p25 calls`. A flowgraph of GNU Radio's own blocks then modulates a recording, adds noise, and demodulates it.
"""

import math
import pathlib
import random
import subprocess
import sys

import pytest

numpy = pytest.importorskip("numpy")
pmt = pytest.importorskip("pmt")
pytest.importorskip("gnuradio.gr")

HERE = pathlib.Path(__file__).resolve().parent
TOP = HERE.parent.parent
sys.path[:0] = [str(HERE), str(HERE.parent)]
sys.dont_write_bytecode = True

import p25  # noqa: E402
import p25_items  # noqa: E402
from gnuradio import analog, blocks, digital, filter as filters, gr  # noqa: E402
from gnuradio.filter import firdes  # noqa: E402

SAMPLES = [(TOP / "samples" / it).read_bytes() for it in ("call.bin", "traffic.bin", "shifted.bin", "terminators.bin")]


def program(words, octets):
    """Returns the output of p25."""
    return subprocess.run([TOP / "out/p25", *words], input=octets, stdout=subprocess.PIPE, check=True).stdout


def damaged(number):
    """Returns recording N of 50: one of the samples, with random bit errors at a BER in %."""
    lot, octets = random.Random(number), bytearray(SAMPLES[number % len(SAMPLES)])
    for _ in range(len(octets) * 8 * (number % 7) // 100):
        at = lot.randrange(8 * len(octets))
        octets[at // 8] ^= 1 << at % 8
    return bytes(octets)


def dibits_of(octets):
    return numpy.array([it >> shift & 3 for it in octets for shift in (6, 4, 2, 0)], numpy.uint8)


def symbols_of(octets):
    return numpy.array([1, 3, -1, -3], numpy.float32)[dibits_of(octets)]


class Kept(gr.basic_block):
    """Keeps the messages of a port."""

    def __init__(self):
        gr.basic_block.__init__(self, "kept", None, None)
        self.message_port_register_in(pmt.intern("in"))
        self.set_msg_handler(pmt.intern("in"), self.keep)
        self.found = []

    def keep(self, message):
        self.found.append(told(message))


class Chunks(gr.sync_block):
    """A source of values in random chunks."""

    def __init__(self, values, seed):
        gr.sync_block.__init__(self, "chunks", None, [values.dtype.type])
        self._values, self._at, self._lot = values, 0, random.Random(seed)

    def work(self, input_items, output_items):
        if self._at >= len(self._values):
            return -1
        size = min(len(output_items[0]), self._lot.choice((1, 7, 100, 1001, 4096)), len(self._values) - self._at)
        output_items[0][:size] = self._values[self._at : self._at + size]
        self._at += size
        return size


def told(message):
    """Returns the dictionary and the octets of a message."""
    return pmt.to_python(pmt.car(message)), bytes(pmt.u8vector_elements(pmt.cdr(message)))


def run(block, *source):
    """Runs a flowgraph to its end, and returns the messages of both ports: those that came, and those that only the end decided."""
    graph, kept, calls = gr.top_block(), Kept(), Kept()
    graph.connect(*source, block)
    graph.msg_connect(block, "items", kept, "in")
    graph.msg_connect(block, "calls", calls, "in")
    graph.run()
    found = []
    for port, one in (("items", kept.found), ("calls", calls.found)):
        left = [told(message) for name, message in block.left if name == port]
        places = {fields["place"] for fields, _ in one}
        found.append(one + [it for it in left if it[0]["place"] not in places])
    return found


def texts(found):
    return [fields["text"] for fields, _ in found]


@pytest.mark.parametrize("number", range(50))
def test_items_are_those_of_show(number):
    octets = damaged(number)
    wanted = program(["show"], octets).decode().splitlines()
    found, calls = run(p25_items.items("byte"), Chunks(dibits_of(octets), number))
    assert texts(found) == wanted
    assert [octets for _, octets in found] == [it.octets for it in p25.items(octets)]
    lines = program(["calls"], octets).decode().splitlines()[:-1]
    assert [f"at={it['place']} bits={it['bits']}" for it, _ in calls] == [" ".join(line.split()[1:3]) for line in lines]


@pytest.mark.parametrize("scale, offset", [(1, 0), (0.01, 0.002), (1000, 150)])
def test_soft_symbols_at_any_scale(scale, offset):
    octets = SAMPLES[0] + SAMPLES[0]
    values = symbols_of(octets) * numpy.float32(scale) + numpy.float32(offset)
    found, calls = run(p25_items.items("float"), Chunks(values, 5))
    units = [it for it in texts(found) if it.startswith("unit")]
    assert len(units) == len([it for it in program(["show"], octets).decode().splitlines() if it.startswith("unit")])
    assert len(calls) == 2


def test_units_whose_sync_is_lost():
    octets = bytearray(SAMPLES[0])
    octets[99:105] = bytes(6)
    octets = bytes(octets)
    found, _ = run(p25_items.items("byte", follow=True), Chunks(dibits_of(octets), 1))
    assert texts(found) == program(["show"], program(["follow"], octets)).decode().splitlines()


def test_fields_are_in_the_dictionary():
    found, calls = run(p25_items.items("byte"), Chunks(dibits_of(SAMPLES[0]), 1))
    by_duid = {it.get("duid"): it for it, _ in found}
    assert by_duid[5]["group"] == 1 and by_duid[5]["source"] == 1 and len(by_duid[5]["voice"]) == 162 and by_duid[0]["algid"] == 0x80
    assert calls[0][0]["end"] in ("tdu", "tdulc") and calls[0][0]["group"] == 1


class Modem(gr.hier_block2):
    """Turns symbols into IQ samples of a four-level signal, with noise, and these into soft symbols again."""

    def __init__(self, per_symbol=10, noise=0.05):
        gr.hier_block2.__init__(self, "modem", gr.io_signature(1, 1, gr.sizeof_float), gr.io_signature(1, 1, gr.sizeof_float))
        rate, turn = 4800 * per_symbol, 2 * math.pi * 600 / (4800 * per_symbol)
        taps = firdes.root_raised_cosine(per_symbol, rate, 4800, 0.2, 11 * per_symbol)
        matched = firdes.root_raised_cosine(1, rate, 4800, 0.2, 11 * per_symbol)
        shaped = filters.interp_fir_filter_fff(per_symbol, taps)
        sent = analog.frequency_modulator_fc(turn)
        added, source = blocks.add_cc(), analog.noise_source_c(analog.GR_GAUSSIAN, noise, 7)
        heard = analog.quadrature_demod_cf(1 / turn)
        cleaned = filters.fir_filter_fff(1, matched)
        timed = digital.symbol_sync_ff(digital.TED_GARDNER, per_symbol, 0.005, 1.0, 1.0, 0.5, 1)
        self.connect(self, shaped, sent, (added, 0))
        self.connect(source, (added, 1))
        self.connect(added, heard, cleaned, timed, self)


def test_iq_through_the_blocks_of_gnu_radio():
    idle = numpy.random.default_rng(3).choice([1, 3, -1, -3], 2000).astype(numpy.float32)
    symbols = numpy.concatenate([idle, symbols_of(SAMPLES[1]), idle])
    found, calls = run(p25_items.items("float"), Chunks(symbols, 3), Modem())
    wanted = [it.line for it in p25.items(SAMPLES[1]) if it.kind_id == p25.Kind.UNIT]
    heard = [it["text"].split(" ", 5)[-1] for it, _ in found if it["kind"] == "unit"]
    assert heard == wanted and len(calls) == len(list(p25.calls(SAMPLES[1])))
