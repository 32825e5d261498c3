"""What `relay` writes and answers, from the pages on framings and commands, by other means than the program's own."""


GREATEST = {"len4": 256 ** 4 - 1, "len2": 256 ** 2 - 1, "vlen": 128 ** 4 - 1}


def head(framing, length):
    """What stands before a payload of so many bytes."""
    if framing != "vlen":
        return length.to_bytes({"len4": 4, "len2": 2}[framing], "big")
    digits = []
    while length >= 128:
        digits.append(128 + length % 128)
        length //= 128
    return bytes([*digits, length])


def spell(framing, payload):
    """The frame of a payload, or the index of the byte for which it has none."""
    if framing == "line":
        at = payload.find(b"\n")
        return payload + b"\n" if at < 0 else at
    if len(payload) > GREATEST[framing]:
        return GREATEST[framing]
    return head(framing, len(payload)) + payload


def read_head(framing, data, place):
    """Where the head at a place ends, and the length that it tells; None where it is broken off. Where no head begins so, None
    and how many bytes show that."""
    if framing != "vlen":
        end = place + {"len4": 4, "len2": 2}[framing]
        return None if end > len(data) else (end, int.from_bytes(data[place:end], "big"))
    length = 0
    for index, byte in enumerate(data[place:place + 4]):
        if index > 0 and byte == 0:
            return None, index + 1
        length += byte % 128 << 7 * index
        if byte < 128:
            return place + index + 1, length
    return (None, 4) if len(data) >= place + 4 else None


def cut(framing, greatest, data):
    """The frames of a whole input as (place, payload), and the status and the line that end them."""
    frames, place = [], 0
    while place < len(data):
        if framing == "line":
            line, feed, _ = data[place:].partition(b"\n")
            if len(line) > greatest:
                return frames, 2, f"bad frame at {place}: length {greatest + 1}\n"
            frames.append((place, line))
            place += len(line) + len(feed)
        else:
            told = read_head(framing, data, place)
            if told is None:
                return frames, 3, f"truncated at {place}\n"
            start, length = told
            if start is None:
                return frames, 2, f"bad frame at {place}: head {length}\n"
            if length > greatest:
                return frames, 2, f"bad frame at {place}: length {length}\n"
            payload = data[start:start + length]
            if len(payload) < length:
                return frames, 3, f"truncated at {place}\n"
            frames.append((place, payload))
            place = start + length
    return frames, 0, ""


def translated(source, sink, greatest, data):
    """The frames that are written for a whole input, the status and the line on standard error."""
    frames, status, line = cut(source, greatest, data)
    written = []
    for place, payload in frames:
        frame = spell(sink, payload)
        if isinstance(frame, int):
            return written, 2, f"bad frame at {place}: byte {frame}\n".encode()
        written.append(frame)
    return written, status, line.encode()


def copy(source, sink, greatest, data):
    """What is written for a whole input, the status and the line on standard error."""
    written, status, line = translated(source, sink, greatest, data)
    return b"".join(written), status, line


def batch(source, sink, greatest, inputs):
    """Of names with their inputs: what is written for each, what standard output gets, the status and the line on standard
    error."""
    outputs, lines, end = {}, [], (0, b"")
    for name, data in inputs.items():
        written, status, line = translated(source, sink, greatest, data)
        outputs[name] = b"".join(written)
        lines.append(f"{name} {status} {len(written)}\n".encode())
        if end[0] == 0 and status != 0:
            end = status, f"{name}: ".encode() + line
    return outputs, b"".join(lines), *end


def generated(framing, seed, count):
    """The input of so many frames that `relay drill` makes from a number."""
    frames = []
    for number in range(count):
        length = (seed + 13 * number) % 96
        frames.append(spell(framing, bytes(32 + (seed + number + index) % 95 for index in range(length))))
    return b"".join(frames)


def some_frames(framing, greatest, rng):
    """Mostly good frames, now and then one that is too big, has a line feed or is broken off."""
    data = b""
    for _ in range(rng.randrange(8)):
        edges = [0, 1, 2, 80, 127, 128, 4095, 16383, 16384, 65535, greatest, greatest + 1]
        size = rng.choice(edges) if rng.random() < 0.3 else rng.randrange(40)
        byte = rng.choice(b"\r ab\xff" if rng.random() < 0.9 else b"\n")
        frame = spell(framing, bytes([byte]) * size)
        data += frame if isinstance(frame, bytes) else b""
    if framing == "vlen" and rng.random() < 0.2:
        data += bytes(rng.choice([0, 1, 127, 128, 200, 255]) for _ in range(rng.randrange(6)))
    if rng.random() < 0.3:
        data = data[:rng.randrange(len(data) + 1)]
    return data
