"""A plain model of opening: what a text of metadata opens to, or by which number it is refused.

The refusals come in their order: the text and its members, additional fields, then the parts of the array. It shares
no code with the library.
"""
import json
import re

OPEN = 'ok|E12|E13|E15|E16|E17|E18|E19|E21|E23|E25'  # what is open: any answer
V3_MEMBERS = ('zarr_format', 'node_type', 'shape', 'data_type', 'chunk_grid', 'chunk_key_encoding', 'fill_value',
              'codecs')
V3_OPTIONAL = ('attributes', 'storage_transformers', 'dimension_names')
V2_MEMBERS = ('zarr_format', 'shape', 'chunks', 'dtype', 'compressor', 'fill_value', 'order', 'filters')
ALIASES = {'zarrs.reshape': 'reshape', 'zarrs.squeeze': 'squeeze', 'vlen': 'zarrs.vlen', 'optional': 'zarrs.optional',
           'variable_length_bytes': 'bytes', 'zarrs.regular_bounded': 'regular_bounded',
           'zarrs.default_suffix': 'default_suffix'}


class Refused(Exception):
    """The answer of an opening that is refused, or that is open."""


def check(holds, answer):
    if not holds:
        raise Refused(answer)


def is_number(value, least=0, most=2 ** 64 - 1):
    return isinstance(value, int) and not isinstance(value, bool) and least <= value <= most


def is_list_of(value, test):
    return isinstance(value, list) and all(map(test, value))


def depth(value):
    inner = value.values() if isinstance(value, dict) else value if isinstance(value, list) else None
    return 0 if inner is None else 1 + max(map(depth, inner), default=0)


def texts(value):
    """All texts of a value, those of names included."""
    if isinstance(value, str):
        yield value
    for inner in [*value, *value.values()] if isinstance(value, dict) else value if isinstance(value, list) else ():
        yield from texts(inner)


def whole_number(digits):
    check(digits != '-0' and -2 ** 63 <= int(digits) < 2 ** 64, 'E23')
    return int(digits)


def left_out(_):
    raise Refused('E23')


def value_of(data):
    """The JSON value of bytes. A member twice is open."""
    twice = []

    def members(pairs):
        twice.extend([1] * (len(pairs) != len(dict(pairs))))
        return dict(pairs)

    try:
        value = json.loads(data.decode('utf-8'), parse_int=whole_number, parse_float=left_out, parse_constant=left_out,
                           object_pairs_hook=members)
    except ValueError:
        raise Refused('E23') from None
    check(depth(value) <= 127, 'E23')
    check(not any(0xd800 <= ord(letter) < 0xe000 for one in texts(value) for letter in one), 'E23')
    check(not twice, OPEN)
    return value


def is_point(value):
    """Whether this is an extension point."""
    if isinstance(value, str):
        return True
    return isinstance(value, dict) and set(value) <= {'name', 'configuration', 'must_understand'} \
        and isinstance(value.get('name'), str) and isinstance(value.get('configuration', {}), dict) \
        and isinstance(value.get('must_understand', True), bool)


def parts(point):
    """The main name of an extension point, and its configuration, empty for none."""
    if isinstance(point, str):
        return ALIASES.get(point, point), {}
    return ALIASES.get(point['name'], point['name']), point.get('configuration', {})


def written(point):
    """An extension point as it is written."""
    if isinstance(point, str):
        return point
    kept = {name: value for name, value in point.items() if name == 'name' or value not in ({}, True)}
    return kept['name'] if len(kept) == 1 else kept


def data_type(name, configuration):
    """A data type: its name, and that of the inner type of an optional one."""
    name = ALIASES.get(name, name)
    if name == 'zarrs.optional':
        inner = configuration
        check(set(inner) <= {'name', 'configuration'} and isinstance(inner.get('name'), str)
              and isinstance(inner.get('configuration', {}), dict), 'E13')
        return name, data_type(inner['name'], inner.get('configuration', {}))
    is_raw = re.fullmatch(r'r[1-9][0-9]*', name) and int(name[1:]) % 8 == 0 and int(name[1:]) <= 8 * 65536
    is_whole = re.fullmatch(r'u?int(8|16|32|64)', name)
    check(not configuration and (is_raw or is_whole or name in ('bool', 'string', 'bytes')), 'E13')
    return name, None


def is_fill(kind, value):
    """Whether this is the metadata of a fill value of the type."""
    name, inner = kind
    if name == 'zarrs.optional':
        return value is None or isinstance(value, list) and len(value) == 1 and is_fill(inner, value[0])
    if name in ('bool', 'string'):
        return isinstance(value, bool if name == 'bool' else str)
    if name == 'bytes' or name[0] == 'r':
        fits = is_list_of(value, lambda one: is_number(one, 0, 255))
        return fits and (name == 'bytes' or len(value) == int(name[1:]) // 8)
    return is_number(value, *ends_of(name[0] == 'u', int(name.lstrip('uint'))))


def ends_of(is_unsigned, bits):
    """The least and the greatest whole number of a type."""
    return (0, 2 ** bits - 1) if is_unsigned else (-2 ** (bits - 1), 2 ** (bits - 1) - 1)


def is_bytes_codec(points, configuration):
    return isinstance(points, list) and len(points) == 1 and is_point(points[0]) \
        and parts(points[0]) == ('bytes', configuration)


def is_front(name, configuration):
    """Whether this is an array-to-array codec."""
    if name == 'squeeze':
        return not configuration
    if name == 'transpose' and set(configuration) == {'order'}:
        order = configuration['order']
        return is_list_of(order, is_number) and sorted(order) == [*range(len(order))]
    if name == 'reshape' and set(configuration) == {'shape'} and isinstance(configuration['shape'], list):
        shape = configuration['shape']
        listed = [one for entry in shape if isinstance(entry, list) for one in entry]
        sizes = [entry for entry in shape if not isinstance(entry, list)]
        rest = [entry for entry in sizes if not is_number(entry, 1)]
        return all(map(is_number, listed)) and len(set(listed)) == len(listed) \
            and (not rest or len(rest) == 1 and is_number(rest[0], -1, -1))
    return False


def is_last(name, configuration):
    """Whether this is an array-to-bytes codec."""
    names, found = set(configuration), configuration.get
    if name == 'bytes':
        return names <= {'endian'} and found('endian', 'little') in ('little', 'big')
    if name == 'packbits':
        return names <= {'padding_encoding'} and found('padding_encoding', 'none') == 'none'
    if name in ('vlen-utf8', 'vlen-bytes'):
        return not names
    if name == 'zarrs.vlen':
        return {'index_data_type', 'index_codecs', 'data_codecs'} <= names \
            and names <= {'index_data_type', 'index_codecs', 'data_codecs', 'index_location'} \
            and found('index_data_type') == 'uint64' and is_bytes_codec(found('index_codecs'), {'endian': 'little'}) \
            and is_bytes_codec(found('data_codecs'), {}) and found('index_location', 'start') == 'start'
    if name == 'zarrs.optional':
        return names == {'mask_codecs', 'data_codecs'} and is_one(found('mask_codecs'), ('packbits', 'bytes')) \
            and is_one(found('data_codecs'))
    return name == 'sharding_indexed' and {'chunk_shape', 'codecs', 'index_codecs'} <= names \
        and names <= {'chunk_shape', 'codecs', 'index_codecs', 'index_location'} \
        and is_list_of(found('chunk_shape'), lambda one: is_number(one, 1)) and is_chain(found('codecs')) \
        and is_bytes_codec(found('index_codecs'), {'endian': 'little'}) \
        and found('index_location', 'end') in ('start', 'end')


def is_one(points, names=None):
    """Whether this is one array-to-bytes codec, which is no shard, or one of these names."""
    if not is_list_of(points, is_point) or len(points) != 1:
        return False
    name, configuration = parts(points[0])
    return (name in names if names else name != 'sharding_indexed') and is_last(name, configuration)


def is_chain(points):
    if not is_list_of(points, is_point) or not points:
        return False
    found = [parts(point) for point in points]
    return all(is_front(*one) for one in found[:-1]) and is_last(*found[-1])


def is_grid(name, configuration, shape):
    sizes = configuration.get('chunk_shape')
    if set(configuration) != {'chunk_shape'} or not isinstance(sizes, list) or len(sizes) != len(shape):
        return False
    if name in ('regular', 'regular_bounded'):
        return all(is_number(size, 1) for size in sizes)
    return name == 'rectangular' and all(
        is_number(size, 1) or is_list_of(size, lambda one: is_number(one, 1)) and sum(size) == end
        for size, end in zip(sizes, shape))


def is_encoding(name, configuration):
    suffix = configuration.get('suffix')
    if name == 'default_suffix' and not (isinstance(suffix, str) and re.fullmatch(r'[A-Za-z0-9._-]+', suffix)):
        return False
    return name in ('default', 'v2', 'default_suffix') and configuration.get('separator', '/') in ('/', '.') \
        and set(configuration) <= {'separator', *['suffix'] * (name == 'default_suffix')}


def read_v3(value):
    """Tests the members of a V3 document."""
    check(isinstance(value, dict) and set(V3_MEMBERS) <= set(value), 'E23')
    check(is_number(value['zarr_format'], 3, 3) and value['node_type'] == 'array', 'E23')
    check(is_list_of(value['shape'], is_number) and is_list_of(value['codecs'], is_point), 'E23')
    check(all(is_point(value[name]) for name in ('data_type', 'chunk_grid', 'chunk_key_encoding')), 'E23')
    for name, test in (('attributes', lambda one: isinstance(one, dict)),
                       ('storage_transformers', lambda one: is_list_of(one, is_point))):
        check(name not in value or value[name] is None or test(value[name]), 'E23')
    names = value.get('dimension_names')
    check(names is None or is_list_of(names, lambda one: one is None or isinstance(one, str)), 'E23')
    check(None not in (value.get('attributes', {}), value.get('storage_transformers', [])), OPEN)


def fields_of(value):
    """The additional fields."""
    return {name: one for name, one in value.items() if name not in V3_MEMBERS + V3_OPTIONAL}


def open_v3(data):
    """The metadata of the V3 document of these bytes."""
    value = value_of(data)
    read_v3(value)
    fields, names = fields_of(value), value.get('dimension_names')
    check(all(isinstance(one, dict) and one.get('must_understand') is False for one in fields.values()), 'E12')
    check(is_chain(value['codecs']), 'E16')
    kind = data_type(*parts_of_type(value['data_type']))
    check(is_grid(*parts(value['chunk_grid']), value['shape']), 'E18')
    check(is_fill(kind, value['fill_value']), 'E15')
    check(not value.get('storage_transformers'), 'E17')
    check(is_encoding(*parts(value['chunk_key_encoding'])), 'E19')
    check(names is None or len(names) == len(value['shape']), 'E21')
    found = {name: value[name] for name in V3_MEMBERS} | fields
    for name in ('data_type', 'chunk_grid', 'chunk_key_encoding'):
        found[name] = written(value[name])
    found['codecs'] = [*map(written, value['codecs'])]
    found |= {'attributes': value['attributes']} if value.get('attributes') else {}
    return found | ({} if names is None else {'dimension_names': names})


def parts_of_type(point):
    return (point, {}) if isinstance(point, str) else (point['name'], point.get('configuration', {}))


def open_v2(data, attributes=None):
    """The metadata of the V2 document of these bytes, and of the text of the attributes beside it."""
    value = value_of(data)
    check(isinstance(value, dict) and set(V2_MEMBERS) <= set(value), 'E23')
    check(is_number(value['zarr_format'], 2, 2) and value['order'] in ('C', 'F'), 'E23')
    check(is_list_of(value['shape'], is_number) and is_list_of(value['chunks'], lambda one: is_number(one, 1)), 'E23')
    check(isinstance(value['dtype'], (str, list)), 'E23')
    separator = value.get('dimension_separator', '.')
    check(separator in ('.', '/', None), 'E23')
    held = value.get('attributes', {})
    check(held is None or isinstance(held, dict), 'E23')
    check(isinstance(value['compressor'], (dict, type(None))) and isinstance(value['dtype'], str), OPEN)
    check(held is not None and separator is not None, OPEN)
    if attributes is not None:
        held = value_of(attributes)
        check(isinstance(held, dict), 'E23')
    is_clear = value['filters'] is None or is_list_of(value['filters'], lambda one: isinstance(one, dict))
    try:
        create_v2(value)
    except Refused as refused:
        raise refused if is_clear else Refused(f'E23|{refused}') from None
    found = {name: value[name] for name in V2_MEMBERS} | {'dimension_separator': separator}
    return found | ({'attributes': held} if held else {})


def converted(value):
    """The V3 document of a V2 document whose members are right, or E27."""
    try:
        create_v2({**value, 'chunks': value['shape']})
    except Refused:
        return 'E27'
    dtype, fill = value['dtype'], value['fill_value']
    last = {'name': 'bytes', 'configuration': {'endian': 'big' if dtype[0] == '>' else 'little'}}
    order = [*range(len(value['shape']))][::-1]
    front = [{'name': 'transpose', 'configuration': {'order': order}}] * (value['order'] == 'F')
    name = {'b': 'bool', 'O': 'string', 'i': 'int', 'u': 'uint'}[dtype[1]]
    found = {'zarr_format': 3, 'node_type': 'array', 'shape': value['shape'],
             'data_type': name if dtype[1] in 'bO' else f'{name}{8 * int(dtype[2])}',
             'chunk_grid': {'name': 'regular', 'configuration': {'chunk_shape': value['chunks']}},
             'chunk_key_encoding': {'name': 'v2', 'configuration': {'separator': value['dimension_separator']}},
             'fill_value': {'b': bool(fill), 'O': fill or ''}.get(dtype[1], fill or 0),
             'codecs': [*front, 'vlen-utf8' if name == 'string' else 'bytes' if dtype[0] == '|' else last]}
    return found | ({'attributes': value['attributes']} if value.get('attributes') else {})


def create_v2(value):
    dtype, fill = value['dtype'], value['fill_value']
    check(dtype in ('|b1', '|i1', '|u1', '|O') or re.fullmatch(r'[<>][iu][248]', dtype), 'E13')
    check(len(value['chunks']) == len(value['shape']), 'E18')
    if dtype == '|O':
        fits = fill is None or isinstance(fill, str) or is_number(fill, 0, 0)
    elif dtype == '|b1':
        fits = fill is None or isinstance(fill, bool) or is_number(fill, 0, 1)
    else:
        fits = fill is None or is_number(fill, *ends_of(dtype[1] == 'u', 8 * int(dtype[2])))
    check(fits, 'E15')
    check(value['compressor'] is None, 'E25')
    has_filter = value['filters'] == [{'id': 'vlen-utf8'}]
    check(has_filter if dtype == '|O' else value['filters'] in (None, []), 'E25')
