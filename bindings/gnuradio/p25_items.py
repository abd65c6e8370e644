"""A block for GNU Radio: it takes soft symbols or dibits, and sends a message for each item of the recording and for each call.

The messages are PDUs: a dictionary, and the octets of the item as a vector of u8. The block needs the package p25 (`pip install ./bindings`),
and p25_forms.py of the helper scripts, as ./install.sh installs it in share/p25.
"""

import os
import sys

import numpy
import pmt
from gnuradio import gr

import p25

HERE = os.path.dirname(os.path.abspath(__file__))


def _forms():
    """Returns the module of the formats: that of a checkout, or of PREFIX/share/p25."""
    for folder in (f"{HERE}/../../companions", f"{HERE}/..", HERE):
        if os.path.isfile(f"{folder}/p25_forms.py"):
            sys.path.insert(0, folder)
            break
    import p25_forms

    return p25_forms


def fields_of(item):
    """Returns an item as a dictionary: its numbers, its text, and its fields."""
    told = {"kind": item.kind, "place": item.place, "bits": item.bits, "text": item.text}
    if item.nac is not None:
        told.update(nac=item.nac, duid=int(item.duid), fixes=item.fixes)
    fields, link = item.fields, item.link
    if fields is not None:
        told.update((key, value) for key, value in fields._asdict().items() if value is not None and key not in ("nac", "duid", "voice"))
        if fields.voice is not None:
            told["voice"] = b"".join(fields.voice)
    if link is not None:
        told.update((key, int(value)) for key, value in link._asdict().items() if value is not None and key in ("source", "group", "destination"))
        told["emergency"] = link.emergency
    return told


def call_of(call):
    """Returns a call as a dictionary."""
    told = {key: value for key, value in call._asdict().items() if value is not None}
    told["end"] = call.end.name.lower()
    if call.link is not None:
        told.update((key, int(value)) for key, value in call.link._asdict().items() if value is not None and key in ("source", "group", "destination"))
    return told


def message_of(told, octets):
    """Returns a PDU of a dictionary and octets. Octets in the dictionary become vectors of u8."""
    head = pmt.make_dict()
    for key, value in told.items():
        is_octets = isinstance(value, bytes)
        head = pmt.dict_add(head, pmt.intern(key), pmt.init_u8vector(len(value), list(value)) if is_octets else pmt.to_pmt(value))
    return pmt.cons(head, pmt.init_u8vector(len(octets), list(octets)))


class items(gr.sync_block):
    """Divides soft symbols (floats, at any scale and offset) or dibits (octets) into the items of a recording.

    Each item is sent to the port `items` as soon as it is decided, and each call to the port `calls` with the item that decides it. `stop` sends the items
    that only the end of the flowgraph decides. A later block may have ended by then, so they are kept in `left` too, as pairs of a port and a message. With
    `follow` data units whose sync is lost are found by their rhythm.
    """

    def __init__(self, takes="float", calls=True, follow=False):
        gr.sync_block.__init__(self, "p25 items", [{"float": numpy.float32, "byte": numpy.uint8}[takes]], None)
        self.message_port_register_out(pmt.intern("items"))
        self.message_port_register_out(pmt.intern("calls"))
        self._stream, self._caller = p25.Stream(), p25.Caller(by_gap=True) if calls else None
        self._first = (p25.Stream(), p25.Follower()) if follow else None
        forms = _forms() if takes == "float" else None
        self._levels = forms.converter("floats", forms.Turns(), adapts=True) if forms else None
        self._softener = p25.Softener() if forms else None
        self.left, self._is_last = [], False

    def work(self, input_items, output_items):
        given = input_items[0]
        if self._levels is None:
            self._take((self._first[0] if self._first else self._stream).feed_dibits(bytes(given)))
        else:
            octets = self._softener.feed(self._levels.take(given.astype("<f4").tobytes()))
            self._take((self._first[0] if self._first else self._stream).feed(octets))
        return len(given)

    def stop(self):
        self._is_last = True
        if self._levels is not None:
            octets = self._softener.feed(self._levels.end()) + self._softener.finish()
            self._take((self._first[0] if self._first else self._stream).feed(octets))
        if self._first:
            stream, follower = self._first
            self._take(stream.finish())
            self._send(self._stream.feed(follower.finish()))
        self._send(self._stream.finish())
        if self._caller is not None:
            self._send_call(self._caller.finish())
        return True

    def _take(self, found):
        """Takes items that were found, and sends them or their form after the follower."""
        if self._first is None:
            self._send(found)
            return
        for item in found:
            self._send(self._stream.feed(self._first[1].take(item)))

    def _send(self, found):
        for item in found:
            self._publish("items", message_of(fields_of(item), item.octets))
            if self._caller is not None:
                self._send_call(self._caller.take(item))

    def _send_call(self, call):
        if call is not None:
            self._publish("calls", message_of(call_of(call), b""))

    def _publish(self, port, message):
        if self._is_last:
            self.left.append((port, message))
        self.message_port_pub(pmt.intern(port), message)
