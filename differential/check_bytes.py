"""Decodes the oracle's bytes with another Protocol Buffers implementation.

usage: check_bytes.py SAMPLE FRAMES

SAMPLE is the recorded sample of docs/SCRIPT.md. FRAMES is what `differential frames` writes: for
each record the number of frames taken, and for each frame its command and its metadata as prost
encoded them. For every frame taken in the sample:

- command and metadata are decoded, have exactly the fields of the answer, and encode again to the
  same bytes;
- a batch payload is cut into its items, every single metadata is decoded and encoded again to the
  same bytes, and keys, event time, null marks, size and payload are those of the messages that
  joined, in their order;
- a single frame or a chunk bears what its message bore.
"""

import struct
import sys
from google.protobuf import descriptor_pb2, descriptor_pool, message_factory

# Fields of PulsarApi.proto that document 01 names: (name, tag, type, required). An enumeration
# stands as int32, which has the same bytes and takes every number.
MESSAGES = {
    "MessageIdData": [
        ("ledger_id", 1, "uint64", True),
        ("entry_id", 2, "uint64", True),
        ("partition", 3, "int32", False),
        ("batch_index", 4, "int32", False),
        ("batch_size", 6, "int32", False),
    ],
    "CommandSend": [
        ("producer_id", 1, "uint64", True),
        ("sequence_id", 2, "uint64", True),
        ("num_messages", 3, "int32", False),
        ("txnid_least_bits", 4, "uint64", False),
        ("txnid_most_bits", 5, "uint64", False),
        ("highest_sequence_id", 6, "uint64", False),
        ("is_chunk", 7, "bool", False),
        ("message_id", 9, ".MessageIdData", False),
    ],
    "BaseCommand": [("type", 1, "int32", True), ("send", 6, ".CommandSend", False)],
    "MessageMetadata": [
        ("producer_name", 1, "string", True),
        ("sequence_id", 2, "uint64", True),
        ("publish_time", 3, "uint64", True),
        ("partition_key", 6, "string", False),
        ("compression", 8, "int32", False),
        ("uncompressed_size", 9, "uint32", False),
        ("num_messages_in_batch", 11, "int32", False),
        ("event_time", 12, "uint64", False),
        ("schema_version", 16, "bytes", False),
        ("ordering_key", 18, "bytes", False),
        ("deliver_at_time", 19, "int64", False),
        ("txnid_least_bits", 22, "uint64", False),
        ("txnid_most_bits", 23, "uint64", False),
        ("highest_sequence_id", 24, "uint64", False),
        ("null_value", 25, "bool", False),
        ("uuid", 26, "string", False),
        ("num_chunks_from_msg", 27, "int32", False),
        ("total_chunk_msg_size", 28, "int32", False),
        ("chunk_id", 29, "int32", False),
        ("null_partition_key", 30, "bool", False),
    ],
    "SingleMessageMetadata": [
        ("partition_key", 2, "string", False),
        ("payload_size", 3, "int32", True),
        ("event_time", 5, "uint64", False),
        ("ordering_key", 7, "bytes", False),
        ("null_value", 9, "bool", False),
        ("null_partition_key", 10, "bool", False),
    ],
}


def protobuf_classes():
    kinds = descriptor_pb2.FieldDescriptorProto
    file = descriptor_pb2.FileDescriptorProto(name="PulsarApi.proto", syntax="proto2")
    for name, fields in MESSAGES.items():
        message = file.message_type.add(name=name)
        for field, tag, kind, required in fields:
            label = kinds.LABEL_REQUIRED if required else kinds.LABEL_OPTIONAL
            added = message.field.add(name=field, number=tag, label=label)
            if kind.startswith("."):
                added.type, added.type_name = kinds.TYPE_MESSAGE, kind
            else:
                added.type = kinds.Type.Value("TYPE_" + kind.upper())
    pool = descriptor_pool.DescriptorPool()
    pool.Add(file)
    factory = message_factory.MessageFactory(pool)
    return {name: factory.GetPrototype(pool.FindMessageTypeByName(name)) for name in MESSAGES}


CLASSES = protobuf_classes()


def decoded(name, data):
    """The message as a dictionary of the fields present; it must encode to the same bytes."""
    message = CLASSES[name]()
    message.ParseFromString(data)
    if message.SerializeToString() != data:
        raise AssertionError(f"{name}: other bytes on encoding again: {data.hex()}")
    return fields_of(message)


def fields_of(message):
    fields = {}
    for field, value in message.ListFields():
        if isinstance(value, str):
            value = value.encode()
        fields[field.name] = fields_of(value) if hasattr(value, "ListFields") else value
    return fields


class Reader:
    def __init__(self, data):
        self.data, self.at = data, 0

    def raw(self, length):
        if self.at + length > len(self.data):
            raise EOFError
        self.at += length
        return self.data[self.at - length : self.at]

    def number(self, form):
        return struct.unpack("<" + form, self.raw(struct.calcsize("<" + form)))[0]

    def u8(self):
        return self.number("B")

    def u32(self):
        return self.number("I")

    def i32(self):
        return self.number("i")

    def u64(self):
        return self.number("Q")

    def i64(self):
        return self.number("q")

    def boolean(self):
        return self.u8() == 1

    def text(self):
        return self.raw(self.u32())

    def part(self):
        return self.u64(), self.u64()

    def maybe(self, read):
        """An optional value of an answer."""
        return read() if self.u8() else None

    def given(self, size, read):
        """An optional value of a script, whose bytes are always there."""
        present, start = self.u8(), self.at
        value = read() if present else None
        self.at = start + size
        return value


def script_message(r):
    return {
        "payload": r.part(),
        "partition_key": r.given(16, r.part),
        "ordering_key": r.given(16, r.part),
        "schema_version": r.given(16, r.part),
        "name": r.part(),
        "event_time": r.given(8, r.u64),
        "null_value": r.given(1, r.boolean),
        "null_partition_key": r.given(1, r.boolean),
        "deliver_at_time": r.given(8, r.i64),
        "compression": r.given(4, r.i32),
        "uncompressed_size": r.u32(),
        "num_messages": r.i32(),
        "transaction": r.given(16, lambda: (r.u64(), r.u64())),
        "source_id": r.given(28, lambda: (r.u64(), r.u64(), r.i32(), r.i32(), r.i32())),
    }


def script_send(r, reserved):
    message = script_message(r)
    r.raw(8 if reserved else 0)
    message["uuid"], message["publish_time"] = r.raw(16), r.u64()
    r.raw(16)
    return message


def script_entry(r):
    sequence_id, _, kind = r.u64(), r.raw(20), r.u8()
    r.raw(8)
    message = script_message(r)
    message["publish_time"] = r.u64()
    length, name = r.u8(), r.raw(64)
    message["producer_name"], message["uuid"] = name[: min(length, 64)], r.raw(16)
    return sequence_id, kind, message


SKIPPED = {
    0x03: 16, 0x04: 16, 0x05: 48, 0x06: 20, 0x07: 12, 0x08: 4, 0x09: 8, 0x0B: 4, 0x0C: 0,
    0x11: 8, 0x12: 8, 0x13: 8, 0x14: 1, 0x15: 1, 0x16: 9, 0x17: 9, 0x18: 1, 0x19: 0, 0x1A: 8,
    0x20: 0, 0x21: 0, 0x22: 8, 0x23: 12, 0x24: 0, 0x25: 0, 0x26: 0, 0x27: 0,
}  # fmt: skip


def script_operation(r):
    code = r.u8()
    if code in (0x01, 0x02):
        return code, script_send(r, code == 0x01)
    if code == 0x0A:
        return code, [script_entry(r) for _ in range(r.u32())]
    if code == 0x0D:
        return code, r.u64()
    if code == 0x10:
        return code, r.text()
    return code, r.raw(SKIPPED[code])


def present(fields):
    return {name: value for name, value in fields.items() if value is not None}


def answer_frame(r):
    payload = r.raw(r.u64())
    message_id = lambda: present(
        {
            "ledger_id": r.u64(),
            "entry_id": r.u64(),
            "partition": r.maybe(r.i32),
            "batch_index": r.maybe(r.i32),
            "batch_size": r.maybe(r.i32),
        }
    )
    command = {
        "producer_id": r.u64(),
        "sequence_id": r.u64(),
        "num_messages": r.maybe(r.i32),
        "txnid_least_bits": r.maybe(r.u64),
        "txnid_most_bits": r.maybe(r.u64),
        "highest_sequence_id": r.maybe(r.u64),
        "is_chunk": r.maybe(r.boolean),
        "message_id": r.maybe(message_id),
    }
    metadata = {
        "producer_name": r.text(),
        "sequence_id": r.u64(),
        "publish_time": r.u64(),
        "partition_key": r.maybe(r.text),
        "compression": r.maybe(r.i32),
        "uncompressed_size": r.maybe(r.u32),
        "num_messages_in_batch": r.maybe(r.i32),
        "event_time": r.maybe(r.u64),
        "schema_version": r.maybe(r.text),
        "ordering_key": r.maybe(r.text),
        "deliver_at_time": r.maybe(r.i64),
        "txnid_least_bits": r.maybe(r.u64),
        "txnid_most_bits": r.maybe(r.u64),
        "highest_sequence_id": r.maybe(r.u64),
        "null_value": r.maybe(r.boolean),
        "uuid": r.maybe(r.text),
        "num_chunks_from_msg": r.maybe(r.i32),
        "total_chunk_msg_size": r.maybe(r.i32),
        "chunk_id": r.maybe(r.i32),
        "null_partition_key": r.maybe(r.boolean),
    }
    return {"type": 6, "send": present(command)}, present(metadata), payload


def skip_entry(r):
    r.raw(28)
    kind = r.u8()
    if kind == 0:
        return
    r.raw(8 if kind == 2 else 0)
    r.raw(16)
    for size in (16, 16, 16):
        r.maybe(lambda: r.raw(size))
    r.raw(16)
    for size in (8, 1, 1, 8, 4):
        r.maybe(lambda: r.raw(size))
    r.raw(8)
    for size in (16, 28):
        r.maybe(lambda: r.raw(size))
    r.raw(8)
    r.text()
    r.raw(16)


def skip_dump(r):
    r.raw(8)
    r.text()
    r.raw(26)
    r.maybe(r.u64), r.maybe(r.u64)
    r.raw(2 + 24 + 32 + 16 + 16)
    r.maybe(r.u64), r.maybe(r.u64), r.maybe(r.u64)
    r.maybe(lambda: r.raw(16))
    r.maybe(r.u64), r.maybe(r.u64)
    for _ in range(r.u32()):
        r.u8()
        skip_entry(r)


def answer(r):
    """Code, status and what the check needs of the values: a decision or a frame."""
    code = r.u8()
    if code >= 0xFC:
        r.u64()
        return code, None, None
    status = r.u8()
    if status:
        r.raw(16 if code in (0x01, 0x02) and status == 6 else 0)
        return code, status, None
    if code in (0x01, 0x02):
        decision = r.u8()
        r.raw(8 * decision)
        return code, 0, decision
    if code == 0x04:
        return code, 0, answer_frame(r)
    if code in (0x05, 0x06):
        r.raw(28 if code == 0x05 else 4)
        skip_entry(r)
    elif code in (0x07, 0x08):
        [skip_entry(r) for _ in range(r.u32())]
    elif code == 0x09:
        [skip_entry(r) for _ in range(r.u32() + r.u32())]
    elif code in (0x20, 0x21):
        r.maybe(r.u64)
    elif code == 0x26:
        skip_dump(r)
    else:
        r.raw({0x03: 8, 0x0C: 8, 0x22: 1, 0x23: 1, 0x24: 8, 0x25: 40, 0x27: 8}.get(code, 0))
    return code, 0, None


class Producer:
    """What went in, as far as frames show it."""

    def __init__(self, store):
        self.store, self.name, self.next_id = store, b"", 0
        self.joined, self.by_id = [], {}

    def bytes(self, part):
        return None if part is None else self.store[part[0] : part[0] + part[1]]

    def sent(self, message, decision):
        if decision == 0:
            self.joined.append((self.next_id, message))
        else:
            message = dict(message, producer_name=self.name)
            self.by_id.setdefault(self.next_id, []).append(message)
        self.next_id = (self.next_id + 1) % 2**64

    def batch(self, metadata, payload):
        count = metadata["num_messages_in_batch"]
        members, self.joined = self.joined[:count], self.joined[count:]
        at = 0
        for _, message in members:
            size = struct.unpack_from(">I", payload, at)[0]
            single = decoded("SingleMessageMetadata", payload[at + 4 : at + 4 + size])
            at += 4 + size
            body = self.bytes(message["payload"])
            expect(payload[at : at + len(body)], body)
            at += len(body)
            names = ("event_time", "null_value", "null_partition_key")
            wanted = {name: message[name] for name in names}
            for key in ("partition_key", "ordering_key"):
                wanted[key] = self.bytes(message[key])
            wanted["payload_size"] = len(body)
            expect(single, present(wanted))
        expect(at, len(payload))
        ids = [sequence_id for sequence_id, _ in members]
        most, least = members[0][1]["transaction"] or (None, None)
        wanted = {
            "producer_name": metadata["producer_name"],
            "publish_time": metadata["publish_time"],
            "sequence_id": ids[0],
            "highest_sequence_id": ids[-1] if ids[-1] > ids[0] else None,
            "num_messages_in_batch": len(members),
            "uncompressed_size": sum(message["payload"][1] for _, message in members),
            "txnid_most_bits": most,
            "txnid_least_bits": least,
        }
        expect(metadata, present(wanted))

    def own(self, metadata, payload):
        """A single frame or a chunk: one of the messages that had this id."""
        candidates = self.by_id.get(metadata["sequence_id"], [])
        chunk = metadata.get("chunk_id")
        if not any(self.bears(message, metadata, payload, chunk) for message in candidates):
            raise AssertionError(f"no message bears {metadata}")

    def bears(self, message, metadata, payload, chunk):
        whole = self.bytes(message["payload"])
        names = ("event_time", "null_value", "null_partition_key", "deliver_at_time", "compression")
        wanted = {name: message[name] for name in names}
        for key in ("partition_key", "ordering_key", "schema_version"):
            wanted[key] = self.bytes(message[key])
        wanted["producer_name"] = self.bytes(message["name"]) or message["producer_name"]
        wanted["sequence_id"] = metadata["sequence_id"]
        wanted["publish_time"] = message["publish_time"]
        most, least = message["transaction"] or (None, None)
        wanted["txnid_most_bits"], wanted["txnid_least_bits"] = most, least
        size = message["uncompressed_size"]
        wanted["uncompressed_size"] = size if size or chunk is not None else None
        if chunk is None:
            return present(wanted) == metadata and payload == whole
        hexed = message["uuid"].hex()
        groups = (hexed[:8], hexed[8:12], hexed[12:16], hexed[16:20], hexed[20:])
        wanted["uuid"] = "-".join(groups).encode()
        wanted["chunk_id"] = chunk
        wanted["num_chunks_from_msg"] = metadata["num_chunks_from_msg"]
        wanted["total_chunk_msg_size"] = message["payload"][1]
        last = chunk + 1 == metadata["num_chunks_from_msg"]
        where = len(whole) - len(payload) if last else chunk * len(payload)
        in_place = whole[where : where + len(payload)] == payload
        return present(wanted) == metadata and (in_place or not payload)


def expect(found, wanted):
    if found != wanted:
        raise AssertionError(f"found {found}, wanted {wanted}")


def check_record(script, answers, frames, counts):
    r, a = Reader(script), Reader(answers)
    r.raw(14)
    producer = Producer(r.text())
    while True:
        code, status, value = answer(a)
        if code >= 0xFC:
            return
        operation, argument = script_operation(r)
        expect(operation, code)
        if status:
            continue
        if code in (0x01, 0x02):
            producer.sent(argument, value)
        elif code in (0x08, 0x09):
            producer.joined.clear()
        elif code == 0x0A:
            for sequence_id, kind, message in argument:
                if kind:
                    producer.by_id.setdefault(sequence_id, []).append(message)
        elif code == 0x0D:
            producer.next_id = argument
        elif code == 0x10:
            producer.name = argument
        elif code == 0x04:
            command, metadata, payload = value
            command_bytes, metadata_bytes = next(frames)
            expect(decoded("BaseCommand", command_bytes), command)
            expect(decoded("MessageMetadata", metadata_bytes), metadata)
            if "num_messages_in_batch" in metadata:
                producer.batch(metadata, payload)
                counts["batch frames"] += 1
                counts["messages in batches"] += metadata["num_messages_in_batch"]
            else:
                producer.own(metadata, payload)
                counts["chunks" if "chunk_id" in metadata else "single frames"] += 1


def main():
    sample, frames = (Reader(open(name, "rb").read()) for name in sys.argv[1:3])
    sample.raw(5)
    names = ("single frames", "chunks", "batch frames", "messages in batches")
    counts = dict.fromkeys(names, 0)
    records = sample.u32()
    for record in range(records):
        sample.u32()
        script, answers = sample.text(), sample.text()
        taken = [(frames.text(), frames.text()) for _ in range(frames.u32())]
        try:
            left = iter(taken)
            if len(answers) > 9:
                check_record(script, answers, left, counts)
            expect(list(left), [])
        except AssertionError as error:
            sys.exit(f"record {record}: {error}")
    print(f"{records} records:", ", ".join(f"{n} {name}" for name, n in counts.items()))
    print("decoded and found equal to what went in")


main()
