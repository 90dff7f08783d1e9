"""Parses JSON reports with python3's json.

    python3 read_back.py leaves FILE..    every value with its path, one on each line, after a line with the file's name
    python3 read_back.py page FILE..      the text report, made from the JSON alone
"""
import json
import sys


def object_of(pairs):
    names = [name for name, _ in pairs]
    assert len(names) == len(set(names)), f"a name occurs twice: {names}"
    return dict(pairs)


def leaves(path, value):
    if isinstance(value, dict):
        for name, inner in value.items():
            yield from leaves(f"{path}.{name}", inner)
    elif isinstance(value, list):
        yield f"{path} has {len(value)}"
        for index, inner in enumerate(value):
            yield from leaves(f"{path}.{index}", inner)
    else:
        yield f"{path} = {json.dumps(value)}"


def text(name):
    """A name as in the text report. The bytes agree with the text."""
    stored = bytes.fromhex(name["hex"]).rstrip(b"\0")
    shown = "".join(chr(byte) if 32 <= byte < 127 and byte not in b'"\\' else f"\\x{byte:02x}" for byte in stored)
    assert shown == name["text"], name
    return f'"{shown}"'


def many(count, noun):
    return f"{count} {noun}" if count == 1 else f"{count} {noun}s"


def loop(instrument):
    stored = instrument["loop"]
    numbers = f"{stored['start']} + {stored['length']}"
    if stored["kind"] == "none":
        assert stored["length"] == 0 or instrument["flags"] == 0
        return "no loop" if stored["start"] == stored["length"] == 0 else f"no loop (stored: {numbers})"
    assert stored["length"] != 0
    assert stored["kind"] == ("forward" if instrument["flags"] & 1 else "ping-pong")
    return f"{stored['kind']} loop {numbers}"


def envelope(record):
    flags = record["flags"]
    assert record["on"] == bool(flags & 1)
    assert len(record["points"]) == record["sections"] + 1
    yield f"instrument {record['instrument']}"
    yield "on" if record["on"] else "off"
    if flags & 2:
        yield f"first sustain at point {record['first_sustain']}"
    if flags & 4:
        yield f"loop from point {record['loop_first']} to {record['loop_last']}"
    if flags & 8:
        yield f"second sustain at point {record['second_sustain']}"
    yield "points " + " ".join(f"{position}:{value}" for position, value in record["points"])


def numbered(records, first):
    assert [record["number"] for record in records] == list(range(first, first + len(records)))
    return records


def page(report):
    version = report["version"]
    assert version["text"] == f"{version['version']}.{version['revision']:02x}"
    yield f"version {version['text']}"
    yield f"name {text(report['name'])}"
    yield f"bytes {report['bytes']}"
    for kind, count in report["counts"].items():
        assert kind == "tracks" or count == len(report[kind])
        yield f"{kind.replace('_', ' ')} {count}"
    for song in numbered(report["songs"], 0):
        assert song["length"] == len(song["playlist"])
        yield f"song {song['number']} {text(song['name'])}: patterns {' '.join(map(str, song['playlist'])) or 'none'}"
    for instrument in numbered(report["instruments"], 1):
        sample = f"sample {instrument['sample']}" if instrument["sample"] else "no sample"
        yield (
            f"instrument {instrument['number']} {text(instrument['name'])}: {sample}, volume {instrument['volume']}, "
            f"panning {instrument['panning']}, rate {instrument['rate']}, {loop(instrument)}"
        )
    for pattern in numbered(report["patterns"], 0):
        yield f"pattern {pattern['number']}: {many(pattern['rows'], 'row')}"
    for sample in numbered(report["samples"], 1):
        assert sample["length"] == sample["frames"] * sample["width"] // 8
        yield (
            f"sample {sample['number']}: {sample['width']} bits, {many(sample['frames'], 'frame')}, "
            f"{many(sample['length'], 'byte')}"
        )
    for kind in ("volume", "panning"):
        for record in numbered(report[f"{kind}_envelopes"], 0):
            yield f"{kind} envelope {record['number']}: {', '.join(envelope(record))}"


def main():
    how, *files = sys.argv[1:]
    for file in files:
        with open(file, encoding="utf-8") as f:
            report = json.load(f, object_pairs_hook=object_of)
        lines = leaves("", report) if how == "leaves" else page(report)
        print(file, *lines, sep="\n")


main()
