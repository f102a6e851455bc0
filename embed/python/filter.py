"""Answers requests by an image that a stranger wrote: filter.py IMG < REQUESTS

Each line of standard input is a request, and standard output takes a line for each.
"""
import sys

from geyserpan import Error, Image, Terms


def main(path: str) -> None:
    with open(path, "rb") as file:
        image = Image(file.read(), Terms(turns=100_000, output=4096))
    for line in sys.stdin.buffer:
        sys.stdout.buffer.write(image.run(line.rstrip(b"\n")).output + b"\n")


if __name__ == "__main__":
    try:
        main(sys.argv[1])
    except Error as error:
        sys.exit(f"filter: {error}")
