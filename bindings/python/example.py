"""Prints the record of a sheet, or its refusal: example.py FILE, or of examples/sample.txt."""

import sys
from pathlib import Path

from fezandimo import Reader, Refusal

SAMPLE = Path(__file__).parents[2] / "examples" / "sample.txt"


def main():
    sheet = Path(sys.argv[1]) if len(sys.argv) > 1 else SAMPLE
    try:
        for line in Reader().read_sheet(sheet.read_bytes()).lines():
            print(line)
    except Refusal as refusal:
        print(refusal)


if __name__ == "__main__":
    main()
