"""The setups that the test puts before the host: their text, the same for the kernel's own gadget, what a host should know of each, and the
replies to its questions by M2-104-UM."""
import os
import tomllib

TOP = os.path.dirname(os.path.dirname(os.path.abspath(__file__)))
ENDPOINT = {"name": "Demo Endpoint X", "id": "SN-0001", "manufacturer": [125, 0, 0], "family": 1, "model": 2, "revision": [1, 0, 0, 0],
            "midi1": True, "midi2": True, "protocol": 2, "static": True}
BLOCK = {"active": True, "name": "Main", "hint": 3, "midi1": 0, "direction": 3, "first": 0, "count": 1, "ci": 0, "sysex8": 0, "muids": []}

SEVERAL = ({"name": "Größe " + "0123456789" * 9, "id": "SN-abcdefghijklmnopqrstuvwxyz0123456789XYZ", "manufacturer": [0, 33, 9],
            "family": 300, "model": 16383, "revision": [1, 2, 3, 127]},
           [{"name": "Keys in", "hint": 1, "direction": 1, "count": 2, "ci": 1, "muids": [1000]},
            {"name": "Sounds out", "hint": 2, "direction": 2, "first": 2},
            {"name": "Both ways", "first": 3, "count": 3, "ci": 1, "sysex8": 255, "muids": [1002]},
            {"name": "DIN", "hint": 0, "midi1": 2, "first": 15},
            {"name": "Sleeping", "active": False, "first": 8, "count": 4},
            {"name": "B" * 91, "midi1": 1, "first": 14}])
# Names that fill their packets to the last byte, and one byte less and more.
LENGTHS = ({"name": "ABCDEFGHIJKLMN", "id": "abcdefghijklmnopqrstuvwxyz01"},
           [{"name": "x" * length, "first": first} for first, length in enumerate((1, 12, 13, 14, 26, 27))])
DIFFERENCES = {
    "several": SEVERAL,
    "lengths": LENGTHS,
    "one-protocol1": ({"protocol": 1, "static": False}, [{}, {"name": "Second", "first": 1}]),
    "midi1-only": ({"midi2": False, "protocol": 1}, [{}]),
    "midi2-only": ({"midi1": False}, [{"count": 16}]),
    # Each two blocks share a group.
    "most": ({"static": False}, [{"name": f"Block {number:02}", "first": number % 16} for number in range(32)]),
    "no-block": ({}, []),
    # A block of MIDI 1.0 with more than one group: Linux keeps the first.
    "midi1-wide": ({"name": "Wide"}, [{"midi1": 1, "count": 4}, {"name": "Odd hint", "hint": 2, "direction": 1, "first": 4}]),
}


def literal(value):
    """A value in TOML."""
    if isinstance(value, bool):
        return str(value).lower()
    return f'"{value}"' if isinstance(value, str) else str(value)


def text_of(endpoint, blocks):
    lines = ["[endpoint]", *(f"{key} = {literal(value)}" for key, value in {**ENDPOINT, **endpoint}.items())]
    for block in blocks:
        lines += ["[[block]]", *(f"{key} = {literal(value)}" for key, value in {**BLOCK, **block}.items())]
    return "\n".join(lines) + "\n"


def texts():
    """The text of each setup, by its name; `one` is the example of the pages."""
    with open(f"{TOP}/examples/endpoint.toml", encoding="utf-8") as it:
        return {"one": it.read(), **{name: text_of(*it) for name, it in DIFFERENCES.items()}}


def all_setups():
    return {name: tomllib.loads(text) for name, text in texts().items()}


def seven_bits(number):
    """A number of fourteen bits as two bytes of seven, the higher one first."""
    return (number >> 7) << 8 | number & 127


def protocols(endpoint):
    return endpoint["midi1"] | endpoint["midi2"] << 1


def gadget_commands(setup):
    """The shell that gives the kernel's gadget the same endpoint, in its folder of configfs."""
    endpoint = setup["endpoint"]
    settings = {"protocol": endpoint["protocol"], "protocol_caps": protocols(endpoint), "family": seven_bits(endpoint["family"]),
                "model": seven_bits(endpoint["model"]), "manufacturer": int.from_bytes(bytes(endpoint["manufacturer"]), "big"),
                "sw_revision": int.from_bytes(bytes(endpoint["revision"]), "big"), "ep_name": endpoint["name"], "product_id": endpoint["id"]}
    lines = [f"echo {int(endpoint['static'])} > static_block", *(f"printf %s '{value}' > ep.0/{key}" for key, value in settings.items())]
    for number, block in enumerate(setup.get("block", [])):
        lines += [f"mkdir ep.0/block.{number}"] * (number > 0)
        lines += [f"printf %s '{value}' > ep.0/block.{number}/{key}" for key, value in gadget_block(block).items()]
    # The descriptors of MIDI 1.0, which each gadget has beside those of MIDI 2.0, need a cable.
    return "\n".join([*lines, "echo 1 > ep.0/block.0/midi1_num_groups"]) + "\n"


def gadget_block(block):
    # The gadget knows MIDI-CI up to version 1.
    return {"direction": block["direction"], "first_group": block["first"], "num_groups": block["count"], "ui_hint": block["hint"],
            "midi_ci_version": min(block["ci"], 1), "sysex8_streams": block["sysex8"], "is_midi1": block["midi1"],
            "active": int(block["active"]), "name": block["name"], "midi1_num_groups": 0}


def known(setup):
    """What a host should know: the fields that `peer info` prints."""
    endpoint = setup["endpoint"]
    fields = {"static": int(endpoint["static"]), "protocols": f"{protocols(endpoint) << 8:04X}", "protocol": f"{endpoint['protocol'] << 8:04X}",
              "blocks": len(setup.get("block", [])), "version": "0101", "manufacturer": bytes(endpoint["manufacturer"]).hex().upper(),
              "family": f"{seven_bits(endpoint['family']):04X}", "model": f"{seven_bits(endpoint['model']):04X}",
              "revision": bytes(endpoint["revision"]).hex().upper(), "name": endpoint["name"].encode().hex().upper(),
              "id": endpoint["id"].encode().hex().upper()}
    for number, block in enumerate(setup.get("block", [])):
        # Linux has two bits: 1 for MIDI 1.0, 2 for its slow form as well.
        its = {"direction": block["direction"], "active": int(block["active"]), "first": block["first"], "count": block["count"],
               "ci": block["ci"], "sysex8": block["sysex8"], "hint": block["hint"], "midi1": (0, 1, 3)[block["midi1"]],
               "name": block["name"].encode().hex().upper()}
        fields |= {f"block{number}.{key}": value for key, value in its.items()}
    return {key: str(value) for key, value in fields.items()}


def packet(*parts):
    """A packet of four words, from its first bytes; zeros fill it up."""
    data = b"".join(bytes([it]) if isinstance(it, int) else bytes(it) for it in parts)
    return " ".join(data.ljust(16, b"\0")[at:at + 4].hex().upper() for at in range(0, 16, 4))


def text_packets(text, status, head=b""):
    """A text in parts of 14 bytes, less a head that each part repeats."""
    size = 14 - len(head)
    parts = [text[at:at + size] for at in range(0, len(text), size)]
    forms = [0] if len(parts) == 1 else [1, *[2] * (len(parts) - 2), 3]
    return [packet(0xF0 | form << 2, status, head, part) for form, part in zip(forms, parts)]


def low_first(number):
    return [number & 127, number >> 7]


class Replies:
    """The replies of an endpoint to stream messages: Endpoint Discovery, Stream Configuration Request and Function Block Discovery."""

    def __init__(self, setup):
        self.endpoint, self.blocks, self.protocol = setup["endpoint"], setup.get("block", []), setup["endpoint"]["protocol"]

    def to(self, words):
        data = b"".join(int(it, 16).to_bytes(4, "big") for it in words)
        answers = {0xF000: self.discovery, 0xF005: self.configuration, 0xF010: self.block_discovery}
        return answers.get(data[0] << 8 | data[1], lambda _: [])(data)

    def notice(self):
        return packet(0xF0, 6, self.protocol)

    def discovery(self, data):
        it = self.endpoint
        kinds = [[packet(0xF0, 1, 1, 1, it["static"] << 7 | len(self.blocks), 0, protocols(it))],
                 [packet(0xF0, 2, 0, 0, 0, it["manufacturer"], low_first(it["family"]), low_first(it["model"]), it["revision"])],
                 text_packets(it["name"].encode(), 3), text_packets(it["id"].encode(), 4), [self.notice()]]
        return [reply for bit, replies in enumerate(kinds) if data[7] >> bit & 1 for reply in replies]

    def configuration(self, data):
        if data[2] in (1, 2) and self.endpoint[f"midi{data[2]}"]:
            self.protocol = data[2]
        return [self.notice()]

    def block_discovery(self, data):
        numbers = range(len(self.blocks)) if data[2] == 0xFF else [data[2]] if data[2] < len(self.blocks) else []
        return [reply for number in numbers for reply in self.of_block(number, data[3])]

    def of_block(self, number, filters):
        it = self.blocks[number]
        form = it["hint"] << 4 | it["midi1"] << 2 | it["direction"]
        info = packet(0xF0, 0x11, it["active"] << 7 | number, form, it["first"], it["count"], it["ci"], it["sysex8"])
        return [info] * (filters & 1) + text_packets(it["name"].encode(), 0x12, bytes([number])) * (filters >> 1 & 1)
