"""Sends a frame, spoils some of its bits, and hears it, by ctypes: frame.py SHARED_OBJECT. Run by examples/run."""
import ctypes
import sys

PAYLOAD, FRAME = 221, 4092
KW_HEARD, KW_NOTHING = 1, 0


class Link:
    """The calls of katydidwire.h for bytes: a frame is bytes that hold 0 and 1."""

    def __init__(self, shared_object):
        self.calls = ctypes.CDLL(shared_object)
        for call in (self.calls.kw_send, self.calls.kw_hear):
            call.argtypes = [ctypes.c_char_p, ctypes.c_size_t, ctypes.c_char_p, ctypes.c_size_t]
            call.restype = ctypes.c_uint32

    def send(self, payload):
        """The frame of a payload of 221 bytes."""
        bits = ctypes.create_string_buffer(FRAME)
        answer = self.calls.kw_send(payload, len(payload), bits, FRAME)
        if answer != 0:
            raise ValueError(f"refused {answer}")
        return bits.raw

    def hear(self, bits):
        """The payload that is heard, or None."""
        payload = ctypes.create_string_buffer(PAYLOAD)
        answer = self.calls.kw_hear(bits, len(bits), payload, PAYLOAD)
        if answer not in (KW_HEARD, KW_NOTHING):
            raise ValueError(f"refused {answer}")
        return payload.raw if answer == KW_HEARD else None


def main():
    link = Link(sys.argv[1])
    payload = b"Battery 81 %, three pictures on board.".ljust(PAYLOAD, b"\0")
    frame = bytearray(link.send(payload))
    print("sent  ", payload.rstrip(b"\0").decode())
    for place in range(0, FRAME, 100):  # 41 wrong bits
        frame[place] ^= 1
    heard = link.hear(bytes(frame))
    assert heard == payload
    print("heard ", heard.rstrip(b"\0").decode())
    for bad in (bytes(FRAME - 1), bytes([2]) + bytes(FRAME - 1)):
        try:
            link.hear(bad)
        except ValueError as refusal:
            print(f"{len(bad)} bytes, the first {bad[0]}: {refusal}")
    print("zeros ", link.hear(bytes(FRAME)))


if __name__ == "__main__":
    main()
