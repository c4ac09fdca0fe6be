"""Prints the read-only bytes of archives side by side: memory.py [--alone FUNCTION]... ARCHIVE...

A row for each object and, below it, for each of its functions; last the whole archive. For each
archive, text (the code) and data (the sections .rodata*); of a function, the data that it refers to
itself. With --alone, fails if the code of this function refers to anything else: data or functions.
Needs readelf.
"""

import argparse
import re
import subprocess
import sys


def readelf(option, archive):
    """The lines that readelf prints of an archive, each with the object it is of."""
    ran = subprocess.run(["readelf", "-W", option, archive], stdout=subprocess.PIPE)
    if ran.returncode != 0:
        sys.exit(ran.returncode)
    name = archive
    for line in ran.stdout.decode().splitlines():
        if line.startswith("File: "):
            name = re.search(r"\((.*)\)$", line).group(1)
        else:
            yield name, line


def sections(archive):
    """Object and number of each section: its name, bytes and the bytes of an entry."""
    row = re.compile(r" *\[ *(\d+)\] (\S+) +\S+ +[0-9a-f]+ [0-9a-f]+ ([0-9a-f]+) ([0-9a-f]+) ")
    found = {}
    for name, line in readelf("-S", archive):
        if match := row.match(line):
            number, section, size, entry = match.groups()
            found[name, int(number)] = section, int(size, 16), int(entry, 16)
    return found


def data_symbols(archive, named):
    """Object and name of each symbol in read-only data: its section, place and bytes."""
    found = {}
    for name, line in readelf("-s", archive):
        words = line.split()
        if len(words) == 8 and words[6].isdigit():
            section, _, entry = named[name, int(words[6])]
            if section.startswith(".rodata"):
                found[name, words[7]] = section, int(words[1], 16), int(words[2], 0) or entry
    return found


def referred(archive, named):
    """Object and function, of each that refers to anything else: the bytes of data among it."""
    symbols = data_symbols(archive, named)
    found, function = {}, None
    for name, line in readelf("-r", archive):
        words = line.split()
        if line.startswith("Relocation section '.rela.text."):
            function = line.split("'")[1].removeprefix(".rela.text.")
            found[name, function] = {}
        elif len(words) == 7 and (name, words[4]) in symbols:
            section, place, size = symbols[name, words[4]]
            found[name, function][section, place] = size
    return {key: sum(data.values()) for key, data in found.items()}


def measure(archive):
    """Text and data of each object, of each object and function, and of the whole: None. And the
    functions that refer to nothing else."""
    named = sections(archive)
    data = referred(archive, named)
    rows, alone = {None: [0, 0]}, set()
    for (name, _), (section, size, _) in named.items():
        column = 0 if section.startswith(".text") else 1
        if section.startswith((".text", ".rodata")):
            rows.setdefault((name,), [0, 0])[column] += size
            rows[None][column] += size
        if section.startswith(".text."):
            function = section.removeprefix(".text.")
            rows[name, function] = [size, data.get((name, function), 0)]
            if (name, function) not in data:
                alone.add(function)
    return rows, alone


def main():
    parser = argparse.ArgumentParser()
    parser.add_argument("archives", nargs="+", metavar="ARCHIVE")
    parser.add_argument("--alone", action="append", default=[], metavar="FUNCTION")
    given = parser.parse_args()
    measured, alone = zip(*map(measure, given.archives))
    rows = sorted({row for of in measured for row in of if row})
    print(f"{'':<40}" + "    text    data" * len(measured))
    for row in [*rows, None]:
        label = "  " * (len(row) - 1) + row[-1] if row else "in all"
        numbers = (number for of in measured for number in of.get(row, ("-", "-")))
        print(f"{label:<40}" + "".join(f"{number:>8}" for number in numbers))
    for function in given.alone:
        if not all(function in of for of in alone):
            sys.exit(f"{function} refers to data or functions, or is not there")


main()
