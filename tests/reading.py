#!/usr/bin/env python3
"""What a reader must believe, as docs/CLAIMS.md lists it, against the files: each file of a specs folder opens with `Believe:`,
`How:` or `Cases:`, the page lists just those with `Believe:`, and its counts of lines are right. Its last line says how many
lists and files were compared. Run at the top of the repository."""
import os
import re
import sys

ROW = re.compile(r"^\| `(crates/\S+\.antt)` \| (\d+) \|")
TOTAL = re.compile(r"^\| together(?:, with what stands above)? \| ([\d,]+) \|")
MARKS = ("Believe", "How", "Cases")


def lines(path):
    """Lines that say something: no import, none that is empty."""
    with open(path, encoding="utf-8") as f:
        return sum(1 for l in f if l.strip() and not l.startswith("use "))


def marked():
    found = {}
    for crate in sorted(os.listdir("crates")):
        folder = f"crates/{crate}/specs"
        for name in sorted(os.listdir(folder)) if os.path.isdir(folder) else []:
            if name == "Lib.antt" or not name.endswith(".antt"):
                continue
            with open(f"{folder}/{name}", encoding="utf-8") as f:
                first = f.readline()
            found[f"{folder}/{name}"] = first[3:].split(":")[0]
    return found


def main():
    faults = []
    files = marked()
    for path, mark in files.items():
        if mark not in MARKS:
            faults.append(f"{path} opens with no mark")
    listed, total, totals = [], 0, 0
    with open("docs/CLAIMS.md", encoding="utf-8") as f:
        for l in f:
            row = ROW.match(l)
            if row:
                path, count = row.group(1), int(row.group(2))
                listed.append(path)
                if path not in files:
                    faults.append(f"{path} is listed and not there")
                elif lines(path) != count:
                    faults.append(f"{path} has {lines(path)} lines, not {count}")
                total += count
            end = TOTAL.match(l)
            if end:
                totals += 1
                if int(end.group(1).replace(",", "")) != total:
                    faults.append(f"the lists add up to {total}, not {end.group(1)}")
    if not listed or not totals:
        faults.append("docs/CLAIMS.md lists nothing")
    for path in sorted(set(p for p, m in files.items() if m == "Believe") ^ set(listed)):
        faults.append(f"{path} is marked or listed, not both")
    for path in sorted(p for p in set(listed) if listed.count(p) > 1):
        faults.append(f"{path} is listed twice")
    for fault in faults:
        print(fault)
    print(f"{len(listed)} files to read of {len(files)}, {total} lines")
    return 1 if faults else 0


if __name__ == "__main__":
    sys.exit(main())
