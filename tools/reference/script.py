#!/usr/bin/env python3
"""A second reading of docs/SCRIPT.md, written for expected outputs: plain lists of rows, no sharing with crates/.

    python3 tools/reference/script.py < examples/season.txt > crates/batch_sheet/stdout
"""
import sys

ROWS, CELLS, ENTRIES, RUNS, SAVED = 4096, 4096, 64, 256, 4096
TAKES = {"i": (2, 3), "r": (2, 2), "a": (0, 16), "s": (2, 2), "n": (2, 3), "z": (2, 3), "u": (0, 0), "k": (0, 0), "p": (0, 0)}
ALIVE = ["ir", "ic", "rr", "rc", "ar", "ac", "sr", "sc", "n", "z", "u", "k", "p"]


class No(Exception):
    def __init__(self, number, word=1):
        self.number, self.word = number, word


class Sheet:
    def __init__(self, rows, columns, value):
        self.table = [[value] * columns for _ in range(rows)]
        self.rows, self.columns = rows, columns
        self.entries = self.runs = self.saved = 0
        self.past = []

    def ask(self, rows, columns, runs, saved, columnless=False):
        if rows > ROWS or columns > ROWS:
            raise No(3)
        if rows * columns > CELLS:
            raise No(4)
        if self.entries + 1 > ENTRIES:
            raise No(5)
        if self.runs + runs > RUNS:
            raise No(6)
        if self.saved + saved > SAVED:
            raise No(7)
        if columnless:
            raise No(9)
        self.past.append(([row[:] for row in self.table], self.rows, self.columns, self.runs, self.saved))
        self.entries, self.runs, self.saved = self.entries + 1, self.runs + runs, self.saved + saved
        self.rows, self.columns = rows, columns

    def change(self, letter, side, i, n, v):
        count = self.rows if side == "r" else self.columns
        if i + (n if letter == "r" else 0) > count:
            raise No(2)
        step = n if letter == "i" else -n
        rows = self.rows + (step if side == "r" else 0)
        columns = self.columns + (step if side == "c" else 0)
        lost = 0 if letter == "i" else n * (self.columns if side == "r" else self.rows)
        self.ask(rows, columns, 1 if letter == "r" and n else 0, lost)
        if side == "r":
            self.table[i:i + (0 if letter == "i" else n)] = [[v] * self.columns for _ in range(n)] if letter == "i" else []
        else:
            for row in self.table:
                row[i:i + (0 if letter == "i" else n)] = [v] * n if letter == "i" else []

    def without(self, side, listed):
        count = self.rows if side == "r" else self.columns
        gone = sorted({k for k in listed if k < count})
        runs = sum(1 for k in gone if k - 1 not in gone)
        rows = self.rows - (len(gone) if side == "r" else 0)
        columns = self.columns - (len(gone) if side == "c" else 0)
        had = self.columns
        self.ask(rows, columns, runs, self.rows * self.columns - rows * columns, side == "r" and had == 0)
        if side == "r":
            self.table = [row for k, row in enumerate(self.table) if k not in gone]
        else:
            self.table = [[x for k, x in enumerate(row) if k not in gone] for row in self.table]

    def swap(self, side, i, j):
        if max(i, j) >= (self.rows if side == "r" else self.columns):
            raise No(2)
        self.ask(self.rows, self.columns, 0, 0)
        if side == "r":
            self.table[i], self.table[j] = self.table[j], self.table[i]
        else:
            for row in self.table:
                row[i], row[j] = row[j], row[i]

    def resize(self, rows, columns, v):
        old, m, n = self.table, self.rows, self.columns
        self.ask(rows, columns, 0, m * n - min(m, rows) * min(n, columns))
        self.table = [[old[r][c] if r < m and c < n else v for c in range(columns)] for r in range(rows)]

    def undo(self):
        if not self.past:
            raise No(8)
        self.table, self.rows, self.columns, self.runs, self.saved = self.past.pop()
        self.entries -= 1

    def settle(self):
        self.past = []
        self.entries = self.runs = self.saved = 0


def number(word, at):
    if not (1 <= len(word) <= 10 and all(48 <= b <= 57 for b in word)) or int(word) > 4294967295:
        raise No(15, at)
    return int(word)


def obey(sheet, line):
    words = line.split(b" ")
    verb = words[0].decode("latin-1")
    if len(line) > 80 or verb not in ALIVE:
        raise No(14)
    low, high = TAKES[verb[0]]
    if not low <= len(words) - 1 <= high:
        raise No(15)
    ns = [number(w, k + 2) for k, w in enumerate(words[1:])] + [0] * 3
    if verb == "n":
        if ns[0] > ROWS or ns[1] > ROWS:
            raise No(3)
        if ns[0] * ns[1] > CELLS:
            raise No(4)
        sheet = Sheet(ns[0], ns[1], ns[2])
    elif sheet is None:
        raise No(16)
    elif verb == "p":
        return sheet, [" ".join(map(str, row)) for row in sheet.table]
    elif verb == "u":
        sheet.undo()
    elif verb == "k":
        sheet.settle()
    elif verb == "z":
        sheet.resize(*ns[:3])
    elif verb[0] == "a":
        sheet.without(verb[1], ns[:len(words) - 1])
    elif verb[0] == "s":
        sheet.swap(verb[1], *ns[:2])
    else:
        sheet.change(verb[0], verb[1], *ns[:3])
    return sheet, [f"ok {sheet.rows} {sheet.columns}"]


def main():
    text = sys.stdin.buffer.read()[:65536]
    lines = text.split(b"\n")
    if lines[-1] == b"":
        lines.pop()
    sheet = None
    for at, line in enumerate(lines, 1):
        if line.startswith(b"#"):
            continue
        try:
            sheet, said = obey(sheet, line)
        except No as no:
            letter = "t" if 14 <= no.number <= 16 else "j" if 5 <= no.number <= 8 else "s"
            said = [f"no {at} {no.word} {letter} {no.number}"]
        sys.stdout.write("".join(s + "\n" for s in said))


main()
