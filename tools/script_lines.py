"""The lines of a script, by docs/SCRIPTS.md: what each says, and why it is bad."""
import difflib
import re

from chart_pdus import is_id

FORMS = {
    "nodes": "nodes N [SERIAL]", "pdu": "pdu NODE SESSION HEX", "tick": "tick NODE MOMENT", "grant": "grant NODE ID", "settle": "settle [NODE ..]",
    "deliver": "deliver NUMBER NODE", "replay": "replay K", "crash": "crash NODE NUMBER before (or after)", "restart": "restart NODE",
}
OPENING, LAST_MOMENT = 946_684_800, 4_102_444_799
LONGEST_LINE, LAST_SERIAL, LAST_SESSION, MOST_NODES, MOST = 20_000, 99_999, 99, 9, 18_446_744_073_709_551_615
NUMBER, DIGITS, DECIMAL = re.compile("0|[1-9][0-9]{0,19}"), re.compile("(?:[0-9a-fA-F]{2})+"), re.compile("[0-9]+")
MARK = "\u00ef\u00bb\u00bf"


class Bad(Exception):
    """The line is bad, for this reason."""


def number(name, word, least, most):
    if not DECIMAL.fullmatch(word):
        raise Bad(f"{name} is {word!r}, and no decimal number")
    if not NUMBER.fullmatch(word) and len(word) <= 20:
        raise Bad(f"{name} is {word}: it begins with a zero")
    if len(word) > 20 or not least <= int(word) <= most:
        raise Bad(f"{name} is {word}, and not from {least} to {most}")
    return int(word)


def look(line):
    """Looks for what nobody sees in a line."""
    if len(line) > LONGEST_LINE:
        raise Bad(f"it has {len(line):,} octets, and may have {LONGEST_LINE:,}")
    if line.startswith("#") or not line:
        return
    if line.startswith(MARK):
        raise Bad("it begins with a byte order mark: save the file as UTF-8 without one")
    if line.endswith("\r"):
        raise Bad("it ends in a carriage return: save the file with the line ends of Unix")
    strange = re.search("[^ -~]", line)
    if strange:
        raise Bad(f"octet {strange.start() + 1} is " + ("a tab" if strange[0] == "\t" else f"0x{ord(strange[0]):02x}"))
    space = re.search("^ | $|  ", line)
    if space:
        raise Bad("it begins with a space" if space.start() == 0 else f"octet {space.end()} is a space too many")


def digits(word):
    if re.search("[^0-9a-fA-F]", word):
        raise Bad(f"HEX has {re.search('[^0-9a-fA-F]', word)[0]!r}, which is no hexadecimal digit")
    if not DIGITS.fullmatch(word):
        raise Bad(f"HEX has {len(word)} digits, an odd number")
    return bytes.fromhex(word)


def message_id(word):
    if not is_id(word):
        raise Bad(f"ID is {word!r}, and no message_id: ten digits, of which the first, the next four and the last five are not zero")
    return word


def said(words, count):
    """What these words say: the first of them, and values; so many nodes were started."""
    def node(word):
        return number("NODE", word, 1, count)

    match words:
        case ["nodes", nodes]:
            return "nodes", number("N", nodes, 1, MOST_NODES), 1
        case ["nodes", nodes, serial]:
            return "nodes", number("N", nodes, 1, MOST_NODES), number("SERIAL", serial, 1, LAST_SERIAL)
        case ["pdu", at, session, octets]:
            return "pdu", node(at), number("SESSION", session, 1, LAST_SESSION), digits(octets)
        case ["tick", at, moment]:
            return "tick", node(at), number("MOMENT", moment, OPENING, LAST_MOMENT)
        case ["grant", at, message]:
            return "grant", node(at), message_id(message)
        case ["settle", *nodes]:
            return "settle", sorted({node(word) for word in nodes})
        case ["deliver", packet, at]:
            return "deliver", number("NUMBER", packet, 0, MOST), node(at)
        case ["replay", times]:
            return "replay", number("K", times, 0, MOST)
        case ["crash", at, packet, "before" | "after" as side]:
            return "crash", node(at), number("NUMBER", packet, 0, MOST), side
        case ["restart", at]:
            return "restart", node(at)
    raise Bad(f"its form is: {FORMS[words[0]]}")


def read_line(line, count):
    """What a line says, or none if it is skipped; so many nodes were started, or none yet."""
    look(line)
    if not line or line.startswith("#"):
        return None
    words = line.split(" ")
    if words[0] not in FORMS:
        near = difflib.get_close_matches(words[0], FORMS, 1)
        raise Bad(f"no line begins with {words[0]!r}" + (f": is it {near[0]}?" if near else ""))
    if (words[0] == "nodes") == bool(count):
        raise Bad("nodes comes once" if count else "the first line is nodes N")
    return said(words, count)
