"""A plain model of data types and codecs for the generators of this folder: cells to bytes, and back.

A cell is what fill value metadata says of it, as JSON: a number, a truth value, a text, a list of bytes, `None`, or a
list of one inner cell. A type and a codec are their metadata. The model shares no code with the library.
"""
from itertools import product
from math import prod

ABSENT = 2 ** 64 - 1


def little(number, size):
    return number.to_bytes(size, 'little', signed=number < 0)


def whole(data):
    return int.from_bytes(data, 'little')


def size_of(kind):
    """The size of a cell in bytes, or `None` where cells have no common size."""
    name = kind['name']
    if name == 'zarrs.optional':
        return size_of(kind['configuration'])
    if name in ('string', 'bytes'):
        return None
    return 1 if name == 'bool' else int(name.lstrip('uintr')) // 8


def is_value(kind, cell):
    """Whether the bytes of a cell, which have the right size, are a value."""
    if kind['name'] == 'bool':
        return cell in (b'\0', b'\1')
    if kind['name'] != 'string':
        return True
    try:
        cell.decode()
    except UnicodeDecodeError:
        return False
    return True


def to_bytes(kind, cell):
    """The bytes of a cell that is not optional."""
    name = kind['name']
    if name == 'string':
        return cell.encode()
    if name == 'bytes' or name[0] == 'r':
        return bytes(cell)
    return bytes([cell]) if name == 'bool' else little(cell, size_of(kind))


def from_bytes(kind, cell):
    name = kind['name']
    if name == 'string':
        return cell.decode()
    if name == 'bytes' or name[0] == 'r':
        return list(cell)
    return cell == b'\1' if name == 'bool' else int.from_bytes(cell, 'little', signed=name[0] == 'i')


def cells_of(kind, pieces):
    """The cells of these pieces of bytes, or `None` where one of them is no value."""
    return [from_bytes(kind, one) for one in pieces] if all(is_value(kind, one) for one in pieces) else None


def part_of(codec, *names):
    """Members of a codec's configuration, absent ones as `None`."""
    found = codec.get('configuration', {}) if isinstance(codec, dict) else {}
    return [found.get(name) for name in names] if len(names) > 1 else found.get(names[0])


def name_of(codec):
    return codec if isinstance(codec, str) else codec['name']


def places(shape):
    return list(product(*map(range, shape)))


def reshaped(codec, shape):
    """The shape behind a codec that keeps or moves cells."""
    if name_of(codec) == 'transpose':
        return [shape[place] for place in part_of(codec, 'order')]
    if name_of(codec) == 'squeeze':
        return [extent for extent in shape if extent != 1]
    wanted = part_of(codec, 'shape')
    sizes = [prod(shape[place] for place in one) if isinstance(one, list) else one for one in wanted]
    known = prod(size for size in sizes if size != -1)
    return [prod(shape) // known if size == -1 else size for size in sizes]


def source(codec, shape):
    """For each place behind the codec the number of the cell that stands there."""
    if name_of(codec) != 'transpose':
        return range(prod(shape))
    order, numbers = part_of(codec, 'order'), {place: number for number, place in enumerate(places(shape))}
    back = sorted(range(len(order)), key=order.__getitem__)
    return [numbers[tuple(place[back[one]] for one in range(len(order)))] for place in places(reshaped(codec, shape))]


def encode(chain, kind, shape, cells, keeps_empty, fill):
    """The bytes of cells that are values. `fill` is the fill value, by which a shard leaves subchunks out."""
    *front, last = chain
    for codec in front:
        cells = [cells[number] for number in source(codec, shape)]
        shape = reshaped(codec, shape)
    name = name_of(last)
    if name == 'sharding_indexed':
        return encode_shard(last, kind, shape, cells, keeps_empty, fill)
    if name == 'zarrs.optional':
        return encode_optional(last, kind, shape, cells, fill)
    if name == 'packbits':
        size = (len(cells) + 7) // 8
        return little(sum(1 << place for place, cell in enumerate(cells) if cell), size)
    pieces = [to_bytes(kind, cell) for cell in cells]
    if name in ('vlen-utf8', 'vlen-bytes'):
        return little(len(cells), 4) + b''.join(little(len(one), 4) + one for one in pieces)
    if name == 'zarrs.vlen':
        ends = [sum(map(len, pieces[:place])) for place in range(len(pieces) + 1)]
        return little(8 * len(ends), 8) + b''.join(little(end, 8) for end in ends) + b''.join(pieces)
    is_big = part_of(last, 'endian') == 'big' and kind['name'][0] != 'r'
    return b''.join(one[::-1] if is_big else one for one in pieces)


def encode_optional(codec, kind, shape, cells, fill):
    masks, data = part_of(codec, 'mask_codecs', 'data_codecs')
    mask = encode(masks, {'name': 'bool'}, shape, [cell is not None for cell in cells], False, False)
    some = [cell[0] for cell in cells if cell is not None]
    inner = encode(data, kind['configuration'], [len(some)], some, False, None) if some else b''
    return little(len(mask), 8) + little(len(inner), 8) + mask + inner


def subchunks(codec, shape):
    """The lists of numbers of the cells of each subchunk."""
    sizes = part_of(codec, 'chunk_shape')
    numbers = {place: number for number, place in enumerate(places(shape))}
    inside = places(sizes)
    grid = places([extent // size for extent, size in zip(shape, sizes)])
    return [[numbers[tuple(at * size + one for at, size, one in zip(index, sizes, place))] for place in inside]
            for index in grid]


def joined_shard(codec, parts):
    """The text of a shard of these subchunks, `None` for an absent one."""
    at_start = part_of(codec, 'index_location') == 'start'
    index, data, offset = b'', b'', 16 * len(parts) if at_start else 0
    for part in parts:
        place, size = (ABSENT, ABSENT) if part is None else (offset + len(data), len(part))
        index, data = index + little(place, 8) + little(size, 8), data + (part or b'')
    return index + data if at_start else data + index


def encode_shard(codec, kind, shape, cells, keeps_empty, fill):
    sizes, inner = part_of(codec, 'chunk_shape', 'codecs')
    parts = []
    for numbers in subchunks(codec, shape):
        own = [cells[number] for number in numbers]
        is_kept = keeps_empty or any(cell != fill for cell in own)
        parts.append(encode(inner, kind, sizes, own, keeps_empty, fill) if is_kept else None)
    return joined_shard(codec, parts)


def pieces_of(sizes, data):
    """The data cut into pieces of these sizes, or `None` where they do not fill it."""
    ends = [sum(sizes[:place]) for place in range(len(sizes) + 1)]
    return [data[low:high] for low, high in zip(ends, ends[1:])] if ends[-1] == len(data) else None


def decode(chain, kind, shape, data, fill):
    """The cells of these bytes, or `None`."""
    *front, last = chain
    shapes = [shape]
    for codec in front:
        shapes.append(reshaped(codec, shapes[-1]))
    cells = decode_last(last, kind, shapes[-1], data, fill)
    for codec, before in zip(reversed(front), reversed(shapes[:-1])):
        if cells is None:
            return None
        found = [None] * len(cells)
        for number, cell in zip(source(codec, before), cells):
            found[number] = cell
        cells = found
    return cells


def decode_last(codec, kind, shape, data, fill):
    name, count = name_of(codec), prod(shape)
    if name == 'sharding_indexed':
        return decode_shard(codec, kind, shape, data, fill)
    if name == 'zarrs.optional':
        return decode_optional(codec, kind, shape, data, fill)
    if name == 'packbits':
        bits = whole(data)
        fits = len(data) == (count + 7) // 8 and bits < 1 << count
        return [bool(bits >> place & 1) for place in range(count)] if fits else None
    if name in ('vlen-utf8', 'vlen-bytes'):
        pieces = lengths_before(count, data)
    elif name == 'zarrs.vlen':
        pieces = offsets_before(count, data)
    else:
        pieces = pieces_of([size_of(kind)] * count, data)
        if pieces and part_of(codec, 'endian') == 'big' and kind['name'][0] != 'r':
            pieces = [one[::-1] for one in pieces]
    return None if pieces is None else cells_of(kind, pieces)


def lengths_before(count, data):
    """The texts of `vlen-utf8`: a number of texts, and a length before each."""
    if len(data) < 4 or whole(data[:4]) != count:
        return None
    at, pieces = 4, []
    for _ in range(count):
        size = whole(data[at:at + 4])
        if len(data) < at + 4 + size:
            return None
        pieces.append(data[at + 4:at + 4 + size])
        at += 4 + size
    return pieces if at == len(data) else None


def offsets_before(count, data):
    """The texts of `zarrs.vlen`: an index of offsets, and then the data."""
    size = 8 * count + 8
    if len(data) < 8 + size or whole(data[:8]) != size:
        return None
    ends, rest = [whole(data[at:at + 8]) for at in range(8, 8 + size, 8)], data[8 + size:]
    if ends[0] != 0 or ends != sorted(ends):
        return None
    return pieces_of([high - low for low, high in zip(ends, ends[1:])], rest)


def decode_optional(codec, kind, shape, data, fill):
    masks, inner = part_of(codec, 'mask_codecs', 'data_codecs')
    if len(data) < 16 or 16 + whole(data[:8]) + whole(data[8:16]) != len(data):
        return None
    mask_end = 16 + whole(data[:8])
    mask = decode(masks, {'name': 'bool'}, shape, data[16:mask_end], False)
    if mask is None:
        return None
    count = sum(mask)
    if count == 0:
        return None if data[mask_end:] else [None] * len(mask)
    some = decode(inner, kind['configuration'], [count], data[mask_end:], None)
    return None if some is None else [[some.pop(0)] if one else None for one in mask]


def subchunk_ranges(codec, shape, data):
    """The range of each subchunk, `None` for an absent one; or `None` where one does not lie in the data part."""
    count = prod(extent // size for extent, size in zip(shape, part_of(codec, 'chunk_shape')))
    if len(data) < 16 * count:
        return None
    at_start = part_of(codec, 'index_location') == 'start'
    low, high = (16 * count, len(data)) if at_start else (0, len(data) - 16 * count)
    index = data[:low] if at_start else data[high:]
    found = []
    for at in range(0, 16 * count, 16):
        offset, size = whole(index[at:at + 8]), whole(index[at + 8:at + 16])
        if (offset, size) == (ABSENT, ABSENT):
            found.append(None)
        elif low <= offset <= high and offset + size <= high:
            found.append((offset, offset + size))
        else:
            return None
    return found


def decode_shard(codec, kind, shape, data, fill):
    sizes, inner = part_of(codec, 'chunk_shape', 'codecs')
    ranges = subchunk_ranges(codec, shape, data)
    if ranges is None:
        return None
    cells = [fill] * prod(shape)
    for numbers, one in zip(subchunks(codec, shape), ranges):
        own = [fill] * len(numbers) if one is None else decode(inner, kind, sizes, data[slice(*one)], fill)
        if own is None:
            return None
        for number, cell in zip(numbers, own):
            cells[number] = cell
    return cells


def compacted(chain, shape, data):
    """The compaction of these bytes: other bytes, the same, or `None` where the index has a bad range."""
    *front, last = chain
    for codec in front:
        shape = reshaped(codec, shape)
    if name_of(last) != 'sharding_indexed':
        return data
    ranges = subchunk_ranges(last, shape, data)
    return ranges and joined_shard(last, [None if one is None else data[slice(*one)] for one in ranges])
