#!/usr/bin/python3
"""Makes structs.txt and opens.txt: Structs, Values and OPEN frames as Google's protobuf serializes them, each with what
it holds.

Needs Debian's python3-protobuf. The seed is fixed, and the same version gives the same files:

    /usr/bin/python3 make.py structs > structs.txt
    /usr/bin/python3 make.py opens > opens.txt
"""

import random
import struct
import sys

from google.protobuf import descriptor_pb2, descriptor_pool, message_factory, struct_pb2

SEED = 20261115

HEAD = """\
# Structs and Values serialized by Google's protobuf; made by make.py.
# struct BYTES CONTENTS TERMS   a Struct; TERMS are its outermost keys, each with the serialization of its own Value
# value BYTES CONTENTS          a Value
# refused-struct BYTES KIND     serialized all the same, but refused by document 01 with this kind of fault
# refused-value BYTES KIND
# Bytes, keys and texts stand in hexadecimal, where there are none as '-'.
# Contents: null n, number d and its 64 bits, text t, bool b0 or b1, Struct {key:value,..} with its keys in order,
# list [value,..]."""

TOO_DEEP, OTHER = 7, 6

DOUBLE_BITS = [
    0, 1 << 63, 1, 0x000FFFFFFFFFFFFF, 0x0010000000000000, 0x3FF0000000000000, 0xBFF0000000000000,
    0x3FB999999999999A, 0x7FEFFFFFFFFFFFFF, 0x7FF0000000000000, 0xFFF0000000000000, 0x7FF8000000000000,
    0xFFF8000000000001, 0x7FFFFFFFFFFFFFFF, 0x412E848000000000, 0x412E847E00000000, 0x4187D78400000000,
]

TEXTS = [
    "", "a", "press7", "\0", "\x7f", "\x80", "\u00e9t\u00e9", "\u07ff", "\u0800", "\ud7ff", "\ue000", "\ufeff",
    "\uffff", "\U00010000", "\U0010ffff", "\u20ac \U0001d11e", "x" * 127, "y" * 128, "\u00e9" * 100,
]

KEYS = ["", "a", "b", "ab", "abc", "max_message_bytes", "sheets", "\u00e9", "\U0010ffff", "a\0", "k" * 127, "k" * 128]


def serialized(message):
    return message.SerializeToString(deterministic=True)


def in_hex(data):
    return data.hex() or "-"


def contents(value):
    """What a Value holds, in the text form that the head describes."""
    kind = value.WhichOneof("kind")
    if kind == "null_value":
        return "n"
    if kind == "number_value":
        return "d" + struct.pack(">d", value.number_value).hex()
    if kind == "string_value":
        return "t" + in_hex(value.string_value.encode())
    if kind == "bool_value":
        return "b1" if value.bool_value else "b0"
    if kind == "list_value":
        return "[" + ",".join(contents(each) for each in value.list_value.values) + "]"
    return struct_contents(value.struct_value)


def struct_contents(message):
    keys = sorted(message.fields, key=str.encode)
    return "{" + ",".join(in_hex(key.encode()) + ":" + contents(message.fields[key]) for key in keys) + "}"


def terms(message):
    keys = sorted(message.fields, key=str.encode)
    pairs = [in_hex(key.encode()) + ":" + in_hex(serialized(message.fields[key])) for key in keys]
    return ",".join(pairs) or "-"


class Maker:
    """Fills Structs and Values at random, in which exactly so many Structs and lists nest."""

    def __init__(self, seed):
        self.random = random.Random(seed)

    def one_in(self, times):
        return self.random.randrange(times) == 0

    def text(self):
        if self.one_in(2):
            return self.random.choice(TEXTS[:16])
        ranges = [(0x20, 0x7E), (0x80, 0x7FF), (0x800, 0xD7FF), (0xE000, 0xFFFF), (0x10000, 0x10FFFF)]
        return "".join(chr(self.random.randint(*self.random.choice(ranges))) for _ in range(self.random.randint(0, 5)))

    def double(self):
        bits = self.random.choice(DOUBLE_BITS) if self.one_in(2) else self.random.getrandbits(64)
        if bits >> 52 & 0x7FF == 0x7FF and bits & (1 << 52) - 1:
            bits |= 1 << 51  # a signalling NaN may come back as a quiet one
        return struct.unpack("<d", bits.to_bytes(8, "little"))[0]

    def fill_scalar(self, value):
        kind = self.random.randrange(4)
        if kind == 0:
            value.null_value = struct_pb2.NULL_VALUE
        elif kind == 1:
            value.number_value = self.double()
        elif kind == 2:
            value.string_value = self.text()
        else:
            value.bool_value = self.one_in(2)

    def fill_value(self, value, levels):
        if levels == 0:
            self.fill_scalar(value)
        elif self.one_in(2):
            value.struct_value.SetInParent()
            self.fill_struct(value.struct_value, levels)
        else:
            value.list_value.SetInParent()
            for depth in self.depths(levels):
                self.fill_value(value.list_value.values.add(), depth)

    def fill_struct(self, message, levels):
        for depth in self.depths(levels):
            key = self.random.choice(KEYS[:10]) if self.one_in(2) else self.text()
            while key in message.fields:
                key += "k"
            self.fill_value(message.fields[key], depth)

    def depths(self, levels):
        """How deep each Value is in a Struct or list of so many levels."""
        if levels == 1:
            return [0] * self.random.choice([0, 1, 2, 3, 5])
        count = self.random.choice([1, 1, 2, 3])
        depths = [self.random.randrange(levels) if self.one_in(4) else 0 for _ in range(count)]
        depths[self.random.randrange(len(depths))] = levels - 1
        return depths


def print_struct(message):
    print("struct", in_hex(serialized(message)), struct_contents(message), terms(message))


def print_value(value):
    print("value", in_hex(serialized(value)), contents(value))


def print_fixed_values():
    print_value(struct_pb2.Value(null_value=struct_pb2.NULL_VALUE))
    for truth in [False, True]:
        print_value(struct_pb2.Value(bool_value=truth))
    for bits in DOUBLE_BITS:
        print_value(struct_pb2.Value(number_value=struct.unpack("<d", bits.to_bytes(8, "little"))[0]))
    for text in TEXTS:
        print_value(struct_pb2.Value(string_value=text))


def print_fixed_structs(maker):
    print_struct(struct_pb2.Struct())
    for key in KEYS:
        message = struct_pb2.Struct()
        maker.fill_scalar(message.fields[key])
        print_struct(message)
    for limit in [999999, 1000000, 2000000.5, 50000000, 50000001]:
        message = struct_pb2.Struct()
        message.fields["max_message_bytes"].number_value = limit
        print_struct(message)
    message = struct_pb2.Struct()
    for number in range(150):
        message.fields["key %d" % number].number_value = number
    print_struct(message)


def print_refused(maker):
    for levels in [9, 9, 9, 10, 12]:
        message = struct_pb2.Struct()
        maker.fill_struct(message, levels)
        print("refused-struct", in_hex(serialized(message)), TOO_DEEP)
        value = struct_pb2.Value()
        maker.fill_value(value, levels)
        print("refused-value", in_hex(serialized(value)), TOO_DEEP)
    message = struct_pb2.Struct()
    message.fields["no kind"].SetInParent()
    print("refused-struct", in_hex(serialized(message)), OTHER)
    message = struct_pb2.Struct()
    message.ParseFromString(b"\x12\x00")  # a field that Google's parser keeps though it does not know it
    print("refused-struct", in_hex(serialized(message)), OTHER)
    print("refused-value", in_hex(serialized(struct_pb2.Value())), OTHER)
    print("refused-value", in_hex(serialized(struct_pb2.Value(null_value=1))), OTHER)
    value = struct_pb2.Value()
    value.list_value.values.add()
    print("refused-value", in_hex(serialized(value)), OTHER)


def print_structs():
    maker = Maker(SEED)
    print(HEAD)
    print_fixed_values()
    print_fixed_structs(maker)
    for levels in range(1, 9):
        for _ in range(24):
            message = struct_pb2.Struct()
            maker.fill_struct(message, levels)
            print_struct(message)
            value = struct_pb2.Value()
            maker.fill_value(value, levels)
            print_value(value)
    print_refused(maker)


OPENS_HEAD = """\
# OPEN frames serialized by Google's protobuf; made by make.py.
# written BYTES SOCKET NAME FORMAT LIMIT PARAMETERS   the very bytes that a client writes for these
# open BYTES SOCKET NAME FORMAT LIMIT PARAMETERS      a frame that says these, with other parameters or further fields
# refused-open BYTES SOCKET NAME FORMAT NUMBER KIND   a frame that says these, refused with this number, and where that
#                                                     is 18 with this kind of fault, else 0
# Bytes, names and formats stand in hexadecimal, where there are none as '-'. The limit is 50000000 where none is in the
# parameters; these stand as contents do in structs.txt, where there are none as '-'."""

UNREADABLE, OUT_OF_RANGE, NO_SUCH_SOCKET = 18, 19, 20

LIMIT_KEY = "max_message_bytes"
DEFAULT_LIMIT = 50000000

NAMES = [text for text in TEXTS if text] + ["n" * 254, "n" * 255, "\u00e9" * 127 + "e", "\U0010ffff" * 63 + "\u20ac"]
FORMATS = ["", "text/csv", "\u00e9", "f" * 127, "f" * 128, "f" * 255]
LIMITS = [1000000, 1000001, 16777217, 33554433, 49999999, 0, 1, 999999, 50000001, 2147483648, 4294967295]


def open_classes():
    """The classes of OPEN messages: as they are today, and as a client may send them that knows further fields."""
    field = descriptor_pb2.FieldDescriptorProto
    today = [
        (1, "data_pipe", field.TYPE_STRING), (2, "pipe_socket", field.TYPE_UINT32),
        (3, "data_format", field.TYPE_STRING), (4, "parameters", field.TYPE_MESSAGE),
    ]
    further = [
        (5, "varint", field.TYPE_UINT64), (6, "eight_bytes", field.TYPE_DOUBLE), (7, "delimited", field.TYPE_BYTES),
        (8, "four_bytes", field.TYPE_FIXED32), (16, "texts", field.TYPE_STRING), (536870911, "last", field.TYPE_INT32),
    ]
    file = descriptor_pb2.FileDescriptorProto(name="open.proto", package="fbdp", syntax="proto3")
    file.dependency.append(struct_pb2.DESCRIPTOR.name)
    for message_name, fields in [("Open", today), ("FurtherOpen", today + further)]:
        message = file.message_type.add(name=message_name)
        for number, name, kind in fields:
            label = field.LABEL_REPEATED if name == "texts" else field.LABEL_OPTIONAL
            type_name = ".google.protobuf.Struct" if kind == field.TYPE_MESSAGE else None
            message.field.add(number=number, name=name, type=kind, label=label, type_name=type_name)
    pool = descriptor_pool.Default()
    pool.AddSerializedFile(file.SerializeToString())
    classes = message_factory.MessageFactory(pool)
    return [classes.GetPrototype(pool.FindMessageTypeByName("fbdp." + name)) for name in ["Open", "FurtherOpen"]]


Open, FurtherOpen = open_classes()


def limit_of(message):
    """The limit that was put into the parameters."""
    if LIMIT_KEY in message.parameters.fields:
        return int(message.parameters.fields[LIMIT_KEY].number_value)
    return DEFAULT_LIMIT


def open_words(message):
    """The bytes, socket, name and format of an OPEN message."""
    texts = [in_hex(message.data_pipe.encode()), in_hex(message.data_format.encode())]
    return [in_hex(serialized(message)), message.pipe_socket, *texts]


def print_open(form, message):
    parameters = struct_contents(message.parameters) if message.HasField("parameters") else "-"
    print(form, *open_words(message), limit_of(message), parameters)


def print_refused_open(message, number, kind=0):
    print("refused-open", *open_words(message), number, kind)


def print_written(name, socket, text, limit):
    message = Open(data_pipe=name, pipe_socket=socket, data_format=text)
    if limit != DEFAULT_LIMIT:
        message.parameters.fields[LIMIT_KEY].number_value = limit
    print_open("written", message)


def print_all_written(maker):
    print_written("press7", 1, "", DEFAULT_LIMIT)
    print_written("press7", 1, "", 1000000)
    choose = maker.random.choice
    for name in NAMES:
        print_written(name, choose([1, 2]), choose(FORMATS), DEFAULT_LIMIT)
    for text in FORMATS:
        for socket in [1, 2]:
            print_written("press7", socket, text, choose(LIMITS[:5] + [DEFAULT_LIMIT]))
    for limit in LIMITS:
        print_written("press7", choose([1, 2]), choose(FORMATS[:3]), limit)
    for _ in range(40):
        limit = maker.random.randint(1000000, 50000000)
        print_written(choose(NAMES[:15]), choose([1, 2]), choose(FORMATS[:3]), limit)


def fill_open(maker, message, levels):
    """A frame with parameters of so many levels, and now and then a good limit among them."""
    message.data_pipe = maker.random.choice(NAMES[:15])
    message.pipe_socket = maker.random.choice([1, 2])
    message.data_format = maker.random.choice(FORMATS[:3])
    message.parameters.SetInParent()
    maker.fill_struct(message.parameters, levels)
    message.parameters.fields.pop(LIMIT_KEY, None)
    if maker.one_in(2):
        limit = maker.random.choice([maker.random.randint(1000000, 50000000), 1000000, DEFAULT_LIMIT])
        message.parameters.fields[LIMIT_KEY].number_value = limit


def fill_further(maker, message):
    """Some fields that a server of today skips."""
    message.varint = maker.random.getrandbits(64)
    message.eight_bytes = maker.double()
    message.delimited = maker.random.choice([b"", b"\xff\x80", b"\x0a\x01n"])
    message.four_bytes = maker.random.getrandbits(32)
    message.texts.extend(maker.text() for _ in range(maker.random.randrange(4)))
    message.last = maker.random.choice([0, 1, -1])


def print_refused_opens(maker):
    named = {"data_pipe": "press7", "pipe_socket": 1}
    print_refused_open(Open(), OUT_OF_RANGE)
    print_refused_open(Open(data_pipe="press7"), OUT_OF_RANGE)
    print_refused_open(Open(pipe_socket=1), OUT_OF_RANGE)
    print_refused_open(Open(data_pipe="n" * 256, pipe_socket=1), OUT_OF_RANGE)
    print_refused_open(Open(data_pipe="\u00e9" * 128, pipe_socket=2), OUT_OF_RANGE)
    print_refused_open(Open(data_format="f" * 256, **named), OUT_OF_RANGE)
    for socket in [3, 4, 258, 4294967295]:
        print_refused_open(Open(data_pipe="press7", pipe_socket=socket), NO_SUCH_SOCKET)
    for limit in [0, 999999, 1000000.5, 50000001, float("inf"), float("nan"), None, True, "2000000", [2000000]]:
        message = Open(**named)
        message.parameters[LIMIT_KEY] = limit
        print_refused_open(message, OUT_OF_RANGE)
    for levels in [9, 10]:
        message = Open(**named)
        maker.fill_struct(message.parameters, levels)
        print_refused_open(message, UNREADABLE, TOO_DEEP)
    message = Open(**named)
    message.parameters.fields["no kind"].SetInParent()
    print_refused_open(message, UNREADABLE, OTHER)


def print_opens():
    maker = Maker(SEED)
    print(OPENS_HEAD)
    print_all_written(maker)
    message = Open(data_pipe="press7", pipe_socket=1)
    message.parameters.SetInParent()
    print_open("open", message)
    for levels in range(1, 9):
        for _ in range(12):
            message = Open()
            fill_open(maker, message, levels)
            print_open("open", message)
        for _ in range(4):
            message = FurtherOpen()
            fill_open(maker, message, levels)
            fill_further(maker, message)
            print_open("open", message)
    print_refused_opens(maker)


def main():
    makers = {"structs": print_structs, "opens": print_opens}
    if len(sys.argv) != 2 or sys.argv[1] not in makers:
        sys.exit("usage: make.py structs|opens")
    makers[sys.argv[1]]()


if __name__ == "__main__":
    main()
