"""What the scripts that make messages, and those that compare with ecCodes, share."""


def messages(data, edition=2):
    """The messages of an edition in the octets, by their stated total length."""
    at = data.find(b"GRIB")
    while at >= 0 and at + 16 <= len(data):
        first, last = (at + 4, at + 7) if edition == 1 else (at + 8, at + 16)
        total = int.from_bytes(data[first:last], "big")
        if data[at + 7] == edition and total >= 12 and data[at + total - 4 : at + total] == b"7777":
            yield data[at : at + total]
            at = data.find(b"GRIB", at + total)
        else:
            at = data.find(b"GRIB", at + 4)


def sections(message):
    """Start, length and number of each section, as far as they can be followed; 1 to 4 in edition 1."""
    found, two = [], message[7:8] == b"\2"
    at, head = (16, 4) if two else (8, 3)
    while at + 5 <= len(message) and message[at:at + 4] != b"7777" and len(found) < 30_000:
        length = int.from_bytes(message[at:at + head], "big")
        if length < 5 or at + length > len(message):
            break
        number = message[at + 4] if two else len(found) + 1
        found.append((at, length, number))
        at += length
    return found


def cause(note):
    """The cause of a note, as `Demotion Level`, `Loss Parameter` or `refused GridType`."""
    words = note.split()
    return " ".join(words[3:5]) if words[0] == "kept" else " ".join([words[0]] + words[5:6])


def told(causes, done):
    """How many messages of a list have no cause, and for each cause which ones have it, by their numbers."""
    stayed = [f"{causes.count(one)} {one} ({' '.join(str(n) for n, other in enumerate(causes, 1) if other == one)})"
              for one in dict.fromkeys(causes) if one]
    return ", ".join([f"{causes.count(None)} of {len(causes)} {done}"] + stayed)


def section(number, contents):
    """A section of edition 2."""
    return (5 + len(contents)).to_bytes(4, "big") + bytes([number]) + contents


def message_of(parts, discipline=0):
    """A message of edition 2 of these sections."""
    body = b"".join(parts) + b"7777"
    return b"GRIB\0\0" + bytes([discipline, 2]) + (16 + len(body)).to_bytes(8, "big") + body


def reference_of(words):
    """The reference value as mantissa and exponent, and the scale factors E and D, of the words of a reference line."""
    mantissa, exponent = words[1].split("*2^")
    return int(mantissa), int(exponent), int(words[3]), int(words[5])


def our_fields(text):
    """For each field its reference value, scale factors and points, None where missing."""
    fields = []
    for line in text.splitlines():
        words = line.split()
        if words[0] == "reference":
            mantissa, exponent, binary, decimal = reference_of(words)
            fields.append((mantissa * 2.0**exponent, binary, decimal, []))
        elif "." not in words[0]:
            fields[-1][3].append(None if words[1].startswith("missing") else int(words[1]))
    return fields
