"""Messages of OpenFlow 1.0, as the measures of this folder write them."""

HELLO, ERROR, ECHO_REQUEST, ECHO_REPLY, VENDOR, FEATURES_REQUEST, FEATURES_REPLY = range(7)
SET_CONFIG, PACKET_IN, FLOW_REMOVED, PORT_STATUS, PACKET_OUT, FLOW_MOD, PORT_MOD = range(9, 16)
STATS_REQUEST, STATS_REPLY, BARRIER_REQUEST, BARRIER_REPLY = range(16, 20)
ADD, MODIFY_STRICT, DELETE, DELETE_STRICT = 0, 2, 3, 4
# A kind of statistics, and what says that another part follows.
FLOW_STATS, MORE = 1, 1
TABLE, NORMAL, NONE = 0xfff9, 0xfffa, 0xffff
NO_BUFFER = b"\xff" * 4
SEND_FLOW_REM = 1
# Where the packets come from that the measures send.
PACKET_SOURCE = 0x0a000001
# The wildcards of all fields, and those that a name and its number of bits take away.
ALL = 0x3820ff
WILD = {"in_port": 1, "dl_vlan": 2, "dl_src": 4, "dl_dst": 8, "dl_type": 16, "nw_proto": 32, "tp_src": 64,
        "tp_dst": 128}


def message(kind, xid, body=b""):
    return bytes([1, kind]) + (8 + len(body)).to_bytes(2, "big") + (xid & 0xffffffff).to_bytes(4, "big") + body


def number(data, start, end):
    return int.from_bytes(data[start:end], "big")


def match(fields):
    """The bytes of a match of these fields; an address is a pair of its number and its bits."""
    wild = ALL
    for name in fields:
        if name in WILD:
            wild &= ~WILD[name]
    values = {"in_port": 0, "dl_src": 0, "dl_dst": 0, "dl_type": 0, "nw_proto": 0, "tp_src": 0, "tp_dst": 0}
    values |= {name: value for name, value in fields.items() if name in values}
    addresses = []
    for name, shift in (("nw_src", 8), ("nw_dst", 14)):
        address, bits = fields.get(name, (0, 0))
        wild = wild & ~(63 << shift) | (32 - bits) << shift
        addresses.append(address.to_bytes(4, "big"))
    return (wild.to_bytes(4, "big") + values["in_port"].to_bytes(2, "big") + values["dl_src"].to_bytes(6, "big")
            + values["dl_dst"].to_bytes(6, "big") + bytes(4) + values["dl_type"].to_bytes(2, "big") + bytes(1)
            + values["nw_proto"].to_bytes(1, "big") + bytes(2) + addresses[0] + addresses[1]
            + values["tp_src"].to_bytes(2, "big") + values["tp_dst"].to_bytes(2, "big"))


def output(port, most=0):
    return bytes([0, 0, 0, 8]) + port.to_bytes(2, "big") + most.to_bytes(2, "big")


def flow_mod(command, xid, fields, priority=0, actions=b"", flags=0, idle=0, hard=0):
    body = (match(fields) + bytes(8) + command.to_bytes(2, "big") + idle.to_bytes(2, "big") + hard.to_bytes(2, "big")
            + priority.to_bytes(2, "big") + NO_BUFFER + NONE.to_bytes(2, "big") + flags.to_bytes(2, "big"))
    return message(FLOW_MOD, xid, body + actions)


def packet_to(address):
    """A frame of UDP to this address."""
    ends = PACKET_SOURCE.to_bytes(4, "big") + address.to_bytes(4, "big")
    return (bytes.fromhex("0000000000020000000000010800") + bytes.fromhex("4500001c000000004011") + b"\0\0" + ends
            + bytes(8))


def packet_in(xid, port, data):
    sizes = len(data).to_bytes(2, "big") + port.to_bytes(2, "big")
    return message(PACKET_IN, xid, NO_BUFFER + sizes + b"\0\0" + data)


def packet_out(xid, port, actions, data):
    sizes = port.to_bytes(2, "big") + len(actions).to_bytes(2, "big")
    return message(PACKET_OUT, xid, NO_BUFFER + sizes + actions + data)


def flow_request(xid):
    """Asks for all entries."""
    return message(STATS_REQUEST, xid, FLOW_STATS.to_bytes(2, "big") + bytes(2) + match({}) + b"\xff\0"
                   + NONE.to_bytes(2, "big"))


def flow_removed(entry, cookie, priority):
    """The entry of this match was deleted, and no packet met it."""
    return message(FLOW_REMOVED, 0, entry + cookie + priority + b"\2\0" + bytes(28))


def port_status(xid, port, down):
    """The port has lost its link, or has it again."""
    state = int(down).to_bytes(4, "big")
    return message(PORT_STATUS, xid, b"\2" + bytes(7) + port.to_bytes(2, "big") + bytes(26) + state + bytes(16))


def flow_parts(xid, entries, size=64):
    """An answer to a request for all entries, each (match, priority, cookie, actions), none of which a packet met."""
    told = [(88 + len(actions)).to_bytes(2, "big") + bytes(2) + entry + bytes(8) + priority + bytes(10) + cookie
            + bytes(16) + actions for entry, priority, cookie, actions in entries]
    pieces = [told[at:at + size] for at in range(0, len(told), size)] or [[]]
    kind = FLOW_STATS.to_bytes(2, "big")
    flags = [MORE] * (len(pieces) - 1) + [0]
    return [message(STATS_REPLY, xid, kind + more.to_bytes(2, "big") + b"".join(piece))
            for more, piece in zip(flags, pieces)]
