#!/usr/bin/env python3
"""zarr_python.py CASES: the cases of `speed cases` by zarr-python over a dict, without a compressor. A line to a row: its name,
nanoseconds of processor time."""
import sys
import time

import numpy as np
import numcodecs
import zarr

TYPES = {"uint8": "u1", "uint16": "u2", "uint32": "u4", "uint64": "u8", "int16": "i2"}


def least(work, rounds=3):
    best = None
    for _ in range(rounds):
        start = time.process_time_ns()
        work()
        taken = time.process_time_ns() - start
        best = taken if best is None else min(best, taken)
    return best


def say(row, nanoseconds):
    print(f"{row}\t{nanoseconds:.0f}", flush=True)


def dtype_of(word):
    return np.dtype(word[0] + TYPES[word[1:]])


def numbers(text):
    return [int(it) for it in text.split(",")]


def array(shape, chunks, dtype, fill=0, **more):
    return zarr.create(shape, chunks=chunks, dtype=dtype, compressor=None, store={}, fill_value=fill, write_empty_chunks=False, **more)


def region(group, dtype, shape, chunk, start, extents, calls):
    dtype, calls = dtype_of(dtype), int(calls)
    shape, chunk, start, extents = map(numbers, (shape, chunk, start, extents))
    stored, absent = array(shape, chunk, dtype), array(shape, chunk, dtype, 9)
    stored[...] = np.ones(shape, dtype=dtype)
    at = tuple(slice(first, first + extent) for first, extent in zip(start, extents))
    data = np.full(extents, 3, dtype=dtype.newbyteorder("="))

    def store():
        for _ in range(calls):
            stored[at] = data

    def read(it):
        for _ in range(calls):
            it[at]

    say(f"{group}: stored", least(store) / calls)
    say(f"{group}: read", least(lambda: read(stored)) / calls)
    say(f"{group}: read, absent", least(lambda: read(absent)) / calls)


def chunk(group, dtype, count):
    dtype, count, calls = dtype_of(dtype), int(count), 256
    stored, absent = array(64 * count, count, dtype), array(64 * count, count, dtype, 9)
    data, zeros = np.full(count, 3, dtype=dtype.newbyteorder("=")), np.zeros(count, dtype=dtype.newbyteorder("="))
    stored[...] = 3

    def store(what):
        for k in range(calls):
            stored[k % 64 * count : (k % 64 + 1) * count] = what

    def read(it):
        for k in range(calls):
            it[k % 64 * count : (k % 64 + 1) * count]

    say(f"{group}: stored", least(lambda: store(data)) / calls)
    say(f"{group}: read", least(lambda: read(stored)) / calls)
    say(f"{group}: read, absent", least(lambda: read(absent)) / calls)
    say(f"{group}: stored, all fill", least(lambda: store(zeros)) / calls)


def listed(group, kind, count, size):
    if kind != "texts":
        return
    count, size = int(count), int(size)
    made = array(count, size, object, "", object_codec=numcodecs.VLenUTF8())
    data = np.array([f"text {number}" for number in range(count)], dtype=object)

    def store(start, end):
        made[start:end] = data[start:end]

    say(f"{group}: stored", least(lambda: store(0, count)))
    say(f"{group}: read", least(lambda: made[:]))
    say(f"{group}: all but two stored", least(lambda: store(1, count - 1)))
    say(f"{group}: all but two read", least(lambda: made[1 : count - 1]))


def opened(group):
    store = {}
    calls = 100
    zarr.create((8192, 4096), chunks=(256, 256), dtype="<i2", compressor=None, store=store, fill_value=0)

    def reopen():
        for _ in range(calls):
            zarr.open_array(store, mode="r+")

    def build():
        for _ in range(calls):
            zarr.create((8192, 4096), chunks=(256, 256), dtype="<i2", compressor=None, store={}, fill_value=0)

    say(f"{group}: opened", least(reopen) / calls)
    say(f"{group}: built", least(build) / calls)


SORTS = {"region": region, "chunk": chunk, "list": listed, "open": opened}

with open(sys.argv[1], encoding="utf-8") as lines:
    for line in lines:
        sort, *words = line.rstrip("\n").split("\t")
        SORTS[sort](*[word for word in words if word])
