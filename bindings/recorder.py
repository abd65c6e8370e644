import json, p25

def keep(call, units):
    """Writes the data units of a call to a file, and its description beside it."""
    group, source = (call.link.group or 0, call.link.source or 0) if call.link else (0, 0)
    name = f"{call.place}_{group:04x}"
    told = {"place": call.place, "bits": call.bits, "nac": call.nac, "group": group, "source": source,
            "voice": call.links, "broken": call.broken, "end": call.end.name.lower()}
    with open(f"{name}.json", "w") as file:
        file.write(json.dumps(told) + "\n")
    with open(f"{name}.bin", "wb") as file:
        file.writelines(it.octets for it in units)
    print(f"{name}.bin", flush=True)

def followed(file):
    """Yields the items of a recording, also the data units whose sync is lost."""
    follower, stream = p25.Follower(), p25.Stream()
    for item in p25.Stream().read(file, 4096):
        yield from stream.feed(follower.take(item))
    yield from stream.feed(follower.finish())
    yield from stream.finish()

with open(0, "rb", buffering=0) as recording:
    for call, units in p25.calls_with_units(followed(recording), by_gap=True):
        keep(call, units)
