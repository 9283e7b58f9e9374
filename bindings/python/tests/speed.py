#!/usr/bin/env python3
"""speed.py: how long the calls over arrays take, beside the calls of C alone: for packets of one lane, for packets of sixteen mixed lanes, and for
bytes. It prints the ratios; it is no test, since times depend on the machine and its load. Time is that of the processor, the best of five."""
import ctypes
import random
import time
from array import array

from larboardyuzu import Down, Up, _interface
from larboardyuzu._library import call, split_of_c

COUNT = 20_000


def best(run):
    """The least time of five."""
    times = []
    for _ in range(5):
        start = time.process_time()
        run()
        times.append(time.process_time() - start)
    return min(times)


def packets(groups):
    """Notes, controllers and bends in MIDI 2.0 form, each in one of these groups."""
    heads = (0x40900000, 0x40B00700, 0x40E00000)
    return array("I", [word for at in range(COUNT) for word in (heads[at % 3] | random.choice(groups) << 24, random.getrandbits(32))])


def by_c(name, raw, inputs, count, places, item_type):
    """A function that makes one block call of C over all of the input."""
    buffer, items, block = places, (item_type * COUNT)(), _interface.Block()

    def run():
        status = call(name)(raw, inputs, count, 0, buffer, len(buffer), items, len(items), ctypes.byref(block))
        assert status == 0, status

    return run


def ratio_down(groups):
    words = packets(groups)
    with Down(64) as down:
        lent = (ctypes.c_uint32 * len(words)).from_buffer(words)
        alone = best(by_c("down_packets", down._raw, lent, len(words), (ctypes.c_uint8 * (4 * COUNT))(), _interface.Piece))
        return best(lambda: down.translate(words)) / alone


def ratio_up():
    data = b"".join(bytes((*random.choice(((0x90, 0x3C), (0xB0, 0x07), (0xE0, 0x00))), random.getrandbits(7))) for _ in range(COUNT))
    with Up(0, 64) as up:
        alone = best(by_c("up_bytes", up._raw, data, len(data), (ctypes.c_uint32 * (4 * COUNT))(), _interface.Outcome))
        return best(lambda: up.translate(data)) / alone


def main():
    random.seed(1)
    ratios = {"one lane": ratio_down([0]), "sixteen lanes": ratio_down(range(16)), "up": ratio_up()}
    told = ", ".join(f"{what} {ratio:.1f}" for what, ratio in ratios.items())
    print(f"times of the call of C: {told}, {'with' if split_of_c else 'without'} _lanes.c")


if __name__ == "__main__":
    main()
