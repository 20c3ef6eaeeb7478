"""Holds the C interface to the stored vectors: check_vectors.py SHARED_OBJECT. Run by bench/run."""
import ctypes
import os
import sys

FOLDER = os.path.join(os.path.dirname(os.path.abspath(__file__)), "vectors")
PAYLOAD, WORD, WORD_BITS, FRAME = 221, 255, 2040, 4092


def lines(name):
    with open(os.path.join(FOLDER, name)) as text:
        return [line.split() for line in text if not line.startswith("#")]


def bits_of(digits):
    return b"" if digits == "-" else bytes(int(d, 16) >> k & 1 for d in digits for k in (3, 2, 1, 0))


def main():
    calls = ctypes.CDLL(sys.argv[1])

    def call(name, given, room, *more):
        out = ctypes.create_string_buffer(room)
        answer = getattr(calls, name)(given, ctypes.c_size_t(len(given)), out, ctypes.c_size_t(room), *more)
        return answer, out.raw

    def agrees(kind, fields):
        """Whether the call on a line's first field gives the others."""
        number = ctypes.c_uint32(99)
        if kind == "outer encode":
            given, word = map(bytes.fromhex, fields)
            return call("kw_encode", given, WORD) == (0, word)
        if kind == "outer repair":
            word = ctypes.create_string_buffer(bytes.fromhex(fields[0]), WORD)
            answer = calls.kw_repair(word, ctypes.c_size_t(WORD), ctypes.byref(number))
            said = str(number.value) if answer == 1 else "none"
            return answer in (0, 1) and said == fields[1] and word.raw == bytes.fromhex(fields[2])
        if kind == "inner encode":
            given, coded = map(bits_of, fields)
            return call("kw_inner_encode", given, len(coded)) == (0, coded)
        if kind == "inner decode":
            heard, bits = bits_of(fields[0]), bits_of(fields[2])
            if len(heard) != FRAME:
                return None  # the C interface takes whole frames only
            return call("kw_inner_decode", heard, WORD_BITS, ctypes.byref(number)) == (0, bits) and number.value == int(fields[1])
        if kind == "frames send":
            return call("kw_send", bytes.fromhex(fields[0]), FRAME) == (0, bits_of(fields[1]))
        if kind == "frames hear":
            return call("kw_hear", bits_of(fields[0]), PAYLOAD) == (int(fields[1]), bytes.fromhex(fields[2]))
        raise ValueError(kind)

    checked = faults = 0
    for name in ("outer", "inner", "frames"):
        for at, (kind, *fields) in enumerate(lines(name + ".txt")):
            good = agrees(f"{name} {kind}", fields)
            checked += good is not None
            if good is False:
                faults += 1
                print(f"FAULT: {name}.txt, case {at + 1}, {kind}")
    print(f"vectors: {checked} checks, {faults} faults")
    return faults != 0


if __name__ == "__main__":
    sys.exit(main())
