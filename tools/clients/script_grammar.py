"""Which lines of a script are good, as docs/SCRIPTS.md says, and lines that almost are."""
import re

from chart_pdus import is_id

LONGEST = 20_000
NUMBER = re.compile(rb"0|[1-9][0-9]*")
HEX = re.compile(rb"([0-9a-fA-F]{2})+")
MOST = (1 << 64) - 1
FIRST_MOMENT, LAST_MOMENT = 946_684_800, 4_102_444_799


def is_number(word, least, most):
    return NUMBER.fullmatch(word) is not None and least <= int(word) <= most


def is_good_line(line, nodes):
    """Whether a line behind the first is good, over so many nodes, in incarnations that are not the last."""
    if len(line) > LONGEST:
        return False
    if line[:1] == b"#" or not line:
        return True

    def is_node(word):
        return is_number(word, 1, nodes)
    match line.split(b" "):
        case [b"pdu", node, session, octets]:
            return is_node(node) and is_number(session, 1, 99) and HEX.fullmatch(octets) is not None
        case [b"tick", node, moment]:
            return is_node(node) and is_number(moment, FIRST_MOMENT, LAST_MOMENT)
        case [b"grant", node, message_id]:
            return is_node(node) and is_id(message_id.decode("latin-1"))
        case [b"settle", *named]:
            return all(map(is_node, named))
        case [b"deliver", number, node]:
            return is_number(number, 0, MOST) and is_node(node)
        case [b"replay", count]:
            return is_number(count, 0, MOST)
        case [b"crash", node, number, moment]:
            return is_node(node) and is_number(number, 0, MOST) and moment in (b"before", b"after")
        case [b"restart", node]:
            return is_node(node)
    return False


def spoiled(line, choices):
    """A line that is changed somewhere, and so is bad, most of the time."""
    words, at = line.split(b" "), choices.randrange(len(line) + 1)
    place = choices.randrange(len(words))
    word = words[place]
    changed = choices.choice((b"0" + word, word + b" ", b" " + word, word + b"\t", b"", word[:-1], b"-1", b"0", b"10", b"100", b"18446744073709551616", b"+1"))
    return choices.choice((
        line[:at] + bytes([choices.choice((0, 9, 13, 32, 0x80, 0xFF, choices.randrange(256)))]).replace(b"\n", b"x") + line[at:],
        line[:at] + line[at + 1:],
        b" ".join((*words[:place], changed, *words[place + 1:])),
        b" ".join((*words[:place], *words[place + 1:])),
        line + b" 1",
        line + b"00" * LONGEST,
        b"nodes 1",
        line.upper(),
    ))
