"""Scripts for `bench/peer.py`: those of its measurements, and ones by lot, of lines that the peer has."""
import random

START = 946_684_800
WINDOW = 10
BIND = "0000001e000000090000000000000001736d653100707731000034000000"
ENQUIRE_LINK = "00000010000000150000000000000004"
# To an account without a session, so that no attempt is due.
SUBMIT = "0000002900000004000000000000000200010131343400010132353500000000000000000000024869"
# To the account itself, with a delivery receipt.
SUBMIT_OWN = "0000002900000004000000000000000200010131343400010131353500000000000001000000024869"


def identified(serial, node=1):
    """The message_id of a message, in digits of its octets."""
    return f"{node}0001{serial:05d}".encode().hex()


def query(serial):
    return f"00000021000000030000000000000003{identified(serial)}00010131343400"


def cancel(serial):
    return f"0000002500000008000000000000000400{identified(serial)}00010131343400000000"


def bound(nodes):
    return [f"nodes {nodes}", f"pdu 1 1 {BIND}"]


def settled(pdus):
    return [line for pdu in pdus for line in (f"pdu 1 1 {pdu}", "settle")]


def answers(first):
    return [f"pdu 1 1 000000118000000500000000{sequence:08x}00" for sequence in range(first, first + WINDOW)]


def ten_lives(batch):
    """Ten messages from their submit_sm to their delivery receipts, as `bench/cluster.py` has them."""
    serials = range(WINDOW * batch + 1, WINDOW * (batch + 1) + 1)
    sequence = 2 * WINDOW * batch + 1
    decided = [f"pdu 1 1 {SUBMIT_OWN}"] * WINDOW + ["settle", f"tick 1 {START}", "settle"]
    grants = [f"grant 1 10001{serial:05d}" for serial in serials]
    return [*decided, *grants, *answers(sequence), "settle", *answers(sequence + WINDOW)]


def lives(nodes, messages):
    return bound(nodes) + [line for batch in range(messages // WINDOW) for line in ten_lives(batch)]


def taken_but_the_last(message):
    """A submit_sm over three nodes, and its packets but the last vote at node 1, by their numbers: eight a message."""
    first = 8 * message + 1
    prepare, promises, propose, votes = first, (first + 1, first + 2), first + 4, (first + 5, first + 6)
    came = [f"deliver {prepare} {node}" for node in (1, 2, 3)] + [f"deliver {promise} 1" for promise in promises]
    came += [f"deliver {propose} {node}" for node in (1, 2, 3)] + [f"deliver {vote} 1" for vote in votes]
    return [f"pdu 1 1 {SUBMIT}", *came]


def any_hex(lot):
    """A PDU by lot, whole or spoilt, as digits."""
    sequence, serial, node = lot.choice([1, 2, 3, 4, 5, 9]), lot.randint(1, 6), lot.randint(1, 3)
    length = lot.choice([0, 2, 254])
    tlvs = lot.choice(["", "", "0204000212ab", "020c0000", "04240001ff"])
    text = "61" * length + tlvs
    shape = [
        lambda: (lot.choice([1, 2, 9, 9, 9]), lot.choice(["736d653100707731", "736d653200707732", "736d653100707732"]) + "0000"
                 + lot.choice(["33", "34"]) + "000000"),
        lambda: (4, "00010131343400" + "0101" + lot.choice(["31", "31", "32"]) + "353500" + lot.choice(["000000", "c30102"]) + "0000"
                 + f"{lot.choice([0, 1, 1, 2, 3]):02x}00{lot.choice([0, 0, 8]):02x}00{length:02x}" + text),
        lambda: (3, identified(serial, node) + "000101" + lot.choice(["313434", "313434", "31"]) + "00"),
        lambda: (8, "00" + identified(serial, node) + "00010131343400" + "0101" + lot.choice(["", "313535", "323535"]) + "00"),
        lambda: (lot.choice([0x15, 6, 0x21, 0x103]), ""),
        lambda: (0x80000005, lot.choice(["", "00"])),
        lambda: (lot.choice([0x80000000, 0x80000005, 0x80000004]), ""),
    ]
    command, body = lot.choices(shape, [3, 9, 6, 5, 1, 8, 2])[0]()
    status = lot.choice([0, 0, 0, 0x64, 0x65, 0x66]) if command & 0x8000_0000 else 0
    pdu = f"{16 + len(body) // 2:08x}{command:08x}{status:08x}{sequence:08x}{body}"
    if lot.random() < 0.03:
        place = 2 * lot.randrange(len(pdu) // 2)
        pdu = pdu[:place] + f"{lot.randrange(256):02x}" + pdu[place + 2:]
    return pdu


def any_line(lot, nodes, moments):
    """A line by lot."""
    node = lot.randint(1, nodes)

    def tick():
        moments[node] += lot.choice([0, 0, 1, 29, 30, 60, 61, 120, 100_000])
        return f"tick {node} {moments[node]}"

    several = " ".join(str(lot.randint(1, nodes)) for _ in range(lot.randint(1, nodes)))
    lines = [
        lambda: f"pdu {node} {lot.randint(1, 2)} {any_hex(lot)}",
        tick,
        lambda: "settle",
        lambda: f"settle {several}",
        lambda: f"grant {node} {lot.randint(1, nodes)}0001{lot.randint(1, 5):05d}",
        lambda: f"deliver {lot.randint(0, 60)} {node}",
        lambda: f"replay {lot.randint(0, 1)}",
    ]
    return lot.choices(lines, [40, 10, 20, 6, 12, 10, 1])[0]()


def by_lot(seed):
    """A script by lot, in which each session is bound first."""
    lot = random.Random(seed)
    nodes = lot.choice([1, 2, 3, 3, 4])
    moments = dict.fromkeys(range(1, nodes + 1), START)
    binds = [f"pdu {node} {session} {BIND}" for node in moments for session in (1, 2) if lot.random() < 0.8]
    return [f"nodes {nodes}", *binds, *(any_line(lot, nodes, moments) for _ in range(lot.choice([10, 60, 200])))]
