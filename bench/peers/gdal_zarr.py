#!/usr/bin/env python3
"""gdal_zarr.py CASES: the regions of `speed cases` by GDAL's Zarr driver (C++) in memory. A line to a row: its name, nanoseconds of
processor time."""
import sys
import time

import numpy as np
from osgeo import gdal

TYPES = {"<uint8": (gdal.GDT_Byte, "u1"), "<uint16": (gdal.GDT_UInt16, "u2"), "<uint32": (gdal.GDT_UInt32, "u4")}
PATH = "/vsimem/bench.zarr"

# A region with more chunks than these is left out: a file for each takes GDAL minutes.
MOST_CHUNKS = 5000


def least(work, rounds=3):
    best = None
    for _ in range(rounds):
        start = time.process_time_ns()
        work()
        taken = time.process_time_ns() - start
        best = taken if best is None else min(best, taken)
    return best


def say(row, nanoseconds):
    print(f"{row}\t{nanoseconds:.0f}", flush=True)


def numbers(text):
    return [int(it) for it in text.split(",")]


def region(group, dtype, shape, chunk, start, extents, calls):
    if dtype not in TYPES:
        return
    (gdal_type, numpy_type), calls = TYPES[dtype], int(calls)
    shape, chunk, start, extents = map(numbers, (shape, chunk, start, extents))
    if np.prod([-(-extent // size) for extent, size in zip(shape, chunk)]) > MOST_CHUNKS:
        return
    if gdal.VSIStatL(PATH):
        gdal.RmdirRecursive(PATH)
    made = gdal.GetDriverByName("Zarr").CreateMultiDimensional(PATH, [], ["FORMAT=ZARR_V3"])
    root = made.GetRootGroup()
    dimensions = [root.CreateDimension(f"d{k}", None, None, extent) for k, extent in enumerate(shape)]
    options = ["BLOCKSIZE=" + ",".join(map(str, chunk)), "COMPRESS=NONE"]
    array = root.CreateMDArray("a", dimensions, gdal.ExtendedDataType.Create(gdal_type), options)
    array.Write(np.ones(shape, dtype=numpy_type))
    del array, dimensions, root, made
    data = np.full(extents, 3, dtype=numpy_type)

    # The array is opened anew, so that nothing is left of an earlier read.
    def opened(mode):
        return gdal.OpenEx(PATH, gdal.OF_MULTIDIM_RASTER | mode).GetRootGroup().OpenMDArray("a")

    def read():
        it = opened(0)
        for _ in range(calls):
            it.ReadAsArray(start, extents)

    def store():
        it = opened(gdal.OF_UPDATE)
        for _ in range(calls):
            it.Write(data, start)

    say(f"{group}: stored", least(store) / calls)
    say(f"{group}: read", least(read) / calls)


gdal.UseExceptions()
gdal.SetConfigOption("GDAL_NUM_THREADS", "1")
gdal.SetCacheMax(0)
with open(sys.argv[1], encoding="utf-8") as lines:
    for line in lines:
        sort, *words = line.rstrip("\n").split("\t")
        if sort == "region":
            region(*words)
