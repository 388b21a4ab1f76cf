#!/usr/bin/env python3
"""A second implementation of `rowplay`, over plain lists, after the rules of docs/stores.md, and apart from the proved
code.

    scripts/rowplay_model.py < crates/rowplay/stdin > crates/rowplay/stdout

The gate compares what `rowplay` prints with crates/rowplay/stdout.
"""
import sys


class Refused(Exception):
    pass


def need(met, words):
    if not met:
        raise Refused(words)


class Store:
    """For each number a limit and a list of rows, and the free rows."""

    def __init__(self, rows):
        self.free = min(rows, 65535)
        self.tables = {}

    def used(self, number):
        need(number in self.tables, "number is not in use")
        return self.tables[number]

    def placed(self, number, place):
        limit, rows = self.used(number)
        need(place < len(rows), "no row at that place")
        return rows

    @staticmethod
    def allowed(row):
        need(1 <= len(row) <= 240, "row is not of 1 to 240 bytes")

    def make(self, number, limit):
        need(number <= 15 and number not in self.tables, "number is in use or above 15")
        need(1 <= limit <= 255, "limit is not from 1 to 255")
        need(limit <= self.free, "too few free rows")
        self.tables[number] = (limit, [])
        self.free -= limit
        return "ok"

    def drop(self, number):
        limit, _ = self.used(number)
        del self.tables[number]
        self.free += limit
        return "ok"

    def append(self, number, row):
        limit, rows = self.used(number)
        self.allowed(row)
        need(len(rows) < limit, "list is full")
        rows.append(row)
        return "ok"

    def replace(self, number, place, row):
        rows = self.placed(number, place)
        self.allowed(row)
        rows[place] = row
        return "ok"

    def remove(self, number, place):
        del self.placed(number, place)[place]
        return "ok"

    def copy(self, number, place, area):
        row = self.placed(number, place)[place]
        need(len(row) <= area, "area is shorter than the row")
        return row.hex().upper()

    def table(self, number):
        if number not in self.tables:
            return "unused"
        limit, rows = self.tables[number]
        return f"{len(rows)} of {limit} rows"

    def free_rows(self):
        return f"{self.free} free rows"


CALLS = {
    "make": (Store.make, "nn"),
    "drop": (Store.drop, "n"),
    "append": (Store.append, "nh"),
    "replace": (Store.replace, "nnh"),
    "remove": (Store.remove, "nn"),
    "copy": (Store.copy, "nnn"),
    "table": (Store.table, "n"),
    "free": (Store.free_rows, ""),
}


def play(lines):
    store = None
    for line in lines:
        words = line.split("#")[0].split()
        if not words:
            continue
        if words[0] == "store":
            store = Store(int(words[1]))
            yield store.free_rows()
            continue
        call, kinds = CALLS[words[0]]
        words = words[1:] + [""] * (len(kinds) - len(words) + 1)
        given = [int(w) if k == "n" else bytes.fromhex(w) for w, k in zip(words, kinds)]
        try:
            yield call(store, *given)
        except Refused as refusal:
            yield f"refused: {refusal}"


for answer in play(sys.stdin):
    print(answer)
