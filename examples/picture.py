#!/usr/bin/env python3
"""Writes a picture of the program as a PNG.

    python3 examples/picture.py [OPTIONS] IN OUT [--world SURVEY VIEW-WORDS ..]

IN is a binary PPM as `hidrevca draw` writes it, or with --reply the output of a session; OUT is a PNG.
Each may be `-`, for standard input and standard output.

    --reply N            IN is a session's output: take the picture of its reply N, from 1, or the `last`
    --classes asprs      the usual colours of LAS classes in place of the program's: ground brown, vegetation
                         green, buildings orange, water blue, and light ones for all others
    --background RRGGBB  the colour, in hex, of pixels that show no record; else they stay black
    --points N           each shown pixel as a square of N by N, N odd from 1 to 9; one that shows a record
                         is never covered by another
    --legend             prints the colour and the pixels of each class on standard error, before widening
    --world SURVEY VIEW-WORDS ..
                         writes the world file of a view from above beside OUT, which ends in .png: its name
                         has .pgw in that place. SURVEY is the one that was drawn, and the words are the 22
                         from `ortho` to `show`. This comes last.
"""

import re
import sys

import pixels
import replies
import world_file
from header import read_header
from script_ends import Words, Wrong, open_bytes, read_bytes, run, write_bytes


def words():
    parser = Words(__doc__)
    parser.add_argument("input", metavar="IN")
    parser.add_argument("output", metavar="OUT")
    parser.add_argument("--reply", metavar="N", type=reply_number)
    parser.add_argument("--classes", choices=["asprs"])
    parser.add_argument("--background", metavar="RRGGBB", type=colour)
    parser.add_argument("--points", metavar="N", type=int, default=1, choices=[1, 3, 5, 7, 9])
    parser.add_argument("--legend", action="store_true")
    parser.add_argument("--world", metavar="WORD", nargs="+")
    given = parser.parse_args()
    if given.world and (not given.output.lower().endswith(".png") or given.world[0] == given.input == "-"):
        parser.error("with --world OUT ends in .png, and only one of IN and SURVEY is -")
    return given


def reply_number(word):
    if not re.fullmatch("last|[0-9]{1,9}", word):
        raise ValueError
    return word


def colour(word):
    if not re.fullmatch("[0-9A-Fa-f]{6}", word):
        raise ValueError
    return bytes.fromhex(word)


def ppm_of(given):
    """The bytes of the PPM, and a name for it."""
    if given.reply is None:
        return read_bytes(given.input), given.input
    wanted = "picture" if given.reply == "last" else given.reply
    with open_bytes(given.input) as stream:
        (number, head, content), _ = replies.take(stream, given.input, wanted)
    if not head.startswith("PICTURE "):
        raise Wrong(f"{given.input}: reply {number} is no picture: {head}")
    return content, f"{given.input}, reply {number}"


def world_of(given, picture):
    """The text of the world file, checked against the picture's size and the survey's header."""
    survey, *view = given.world
    numbers = world_file.view_numbers(view)
    if numbers[:2] != [picture.width, picture.height]:
        raise Wrong(f"the view has {numbers[0]} by {numbers[1]} pixels, the picture {picture.width} by {picture.height}")
    return world_file.world_text(numbers, read_header(survey))


def legend(picture, asprs):
    """The line of each class, and of the pixels that show none."""
    here, black = pixels.counts(picture)
    for kind, count in here.items():
        red, green, blue = pixels.asprs_colour(kind) if asprs else pixels.program_colour(kind)
        yield f"class {kind} {red:02X}{green:02X}{blue:02X} {count} {pixels.class_name(kind)}".rstrip()
    yield f"no record {black}"


def main():
    given = words()
    picture = pixels.read_ppm(*ppm_of(given))
    # All that can be refused is looked at before a file is written.
    world = world_of(given, picture) if given.world else None
    if given.classes or given.legend:
        pixels.check_palette(picture, given.input)
    lines = list(legend(picture, given.classes)) if given.legend else []
    if given.classes:
        picture = pixels.recolour(picture)
    if given.points > 1:
        picture = pixels.widen(picture, given.points)
    if given.background:
        picture = pixels.with_background(picture, given.background)
    write_bytes(given.output, pixels.png(picture))
    if world:
        write_bytes(given.output[:-4] + ".pgw", world.encode("ascii"))
    for line in lines:
        print(line, file=sys.stderr)


if __name__ == "__main__":
    run(main, "picture.py")
