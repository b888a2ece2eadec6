"""Item files by Google's protobuf library, whose varints are groups of seven bits too.

Standard input has a line for each file: its bytes in hex, and the words of its records. Each file is decoded by the library number by
number, the words are put together from the numbers, and the numbers are encoded by the library; words and bytes must be the same.
"""
import sys

from google.protobuf.internal.decoder import _DecodeVarint
from google.protobuf.internal.encoder import _VarintBytes

WORDS = 10
START, LENGTHS = 2, (3, 5, 8)


def numbers_of(file):
    numbers, at = [], 0
    while at < len(file):
        number, at = _DecodeVarint(file, at)
        numbers.append(number)
    return numbers


def words_of(numbers):
    """A start is stored less the previous item's start, an end less the word before it."""
    words, start = [], 0
    for i, number in enumerate(numbers):
        which = i % WORDS
        if which == START:
            start += number
            words.append(start)
        elif which in LENGTHS:
            words.append(words[-1] + number)
        else:
            words.append(number)
    return words


def main():
    files = numbers = failed = 0
    for line in sys.stdin:
        file, *words = line.split()
        file, words = bytes.fromhex(file.lstrip("=")), [int(word) for word in words]
        decoded = numbers_of(file)
        files, numbers = files + 1, numbers + len(decoded)
        if words_of(decoded) != words or b"".join(map(_VarintBytes, decoded)) != file:
            failed += 1
            print("varints: another reading of", line[:200])
    print(f"varints: {files} files of {numbers} numbers, {failed} failed")
    return 1 if failed else 0


sys.exit(main())
