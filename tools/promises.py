#!/usr/bin/env python3
"""Writes into docs/PROMISES.md which edits each promise has, as they name it; `tools/check promises` looks whether that is so.

    python3 tools/promises.py --write
"""
import argparse

from checking import promises


def main():
    parser = argparse.ArgumentParser(description=__doc__, formatter_class=argparse.RawDescriptionHelpFormatter)
    parser.add_argument("--write", action="store_true", required=True, help="write the edits of each promise")
    parser.parse_args()
    promises.write()


if __name__ == "__main__":
    main()
