#!/usr/bin/env python3
"""What each registered_delivery asks for, by SMPP 3.4, section 5.2.17: a line each with the octet, whether a receipt is asked for of
DELIVERED, whether of another final state, and the command_status of a submit_sm that has it.

    python3 tools/registered_delivery.py --write     # writes the tests' crates/delivery_tests/src/asked.rt

tools/check looks whether the file is what the section says.
"""
import argparse
import pathlib

ROOT = pathlib.Path(__file__).resolve().parent.parent
FILE = ROOT / "crates/delivery_tests/src/asked.rt"

# Bits 1 and 0, "SMSC Delivery Receipt"; 11 is reserved, and refused ESME_RINVREGDLVFLG (section 5.1.3). Bits 3 and 2 ask the
# recipient for an acknowledgement, bit 4 for an intermediate notification, bits 7 to 5 are reserved: they ask for no receipt.
RECEIPTS = {
    "00": ("no", "no", 0x00),
    "01": ("yes", "yes", 0x00),
    "10": ("no", "yes", 0x00),
    "11": ("no", "no", 0x07),
}

HEAD = '''//! What each registered_delivery asks for. Written by `tools/registered_delivery.py`.

/// A line each: the octet, whether a receipt is asked for of DELIVERED, whether of another final state, and the command_status of a
/// submit_sm that has it.
pub const ASKED: &str = "\\
'''


def table():
    lines = []
    for octet in range(256):
        delivered, other, status = RECEIPTS[f"{octet:08b}"[6:]]
        lines.append(f"{octet} {delivered} {other} {status}\\n\\\n")
    return HEAD + "".join(lines) + '";\n'


def check():
    """How many octets the table has, and whether the tests have it."""
    is_same = FILE.read_text() == table()
    return "256 octets", [] if is_same else [f"{FILE.relative_to(ROOT)} is not what the section says: python3 tools/registered_delivery.py --write"]


def main():
    reader = argparse.ArgumentParser(description=__doc__, formatter_class=argparse.RawDescriptionHelpFormatter)
    reader.add_argument("--write", action="store_true", required=True)
    reader.parse_args()
    FILE.write_text(table())


if __name__ == "__main__":
    main()
