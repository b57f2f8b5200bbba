#!/usr/bin/env python3
"""Makes a table image for the simulator from a JSON file: tables.py CELL.json FILE

crates/simulator/IMAGE.md says what may stand in the JSON file, under "Making a table image".
Exit status 0: the image is written; 1: the file says something that no image holds; 2: it was not called with two names.
"""
import json
import struct
import sys

ATOMIC = {
    'BOOL': (0xC1, 1), 'SINT': (0xC2, 1), 'INT': (0xC3, 2), 'DINT': (0xC4, 4), 'LINT': (0xC5, 8), 'USINT': (0xC6, 1),
    'UINT': (0xC7, 2), 'UDINT': (0xC8, 4), 'ULINT': (0xC9, 8), 'REAL': (0xCA, 4), 'LREAL': (0xCB, 8), 'BYTE': (0xD1, 1),
    'WORD': (0xD2, 2), 'DWORD': (0xD3, 4), 'LWORD': (0xD4, 8),
}
SIGNED = ('SINT', 'INT', 'DINT', 'LINT')
ACCESS = {'Read/Write': 0, 'Read Only': 2, 'None': 3}
FLAGS = (('multi_service', 1, True), ('instance_ids', 2, True), ('aoi_locals_refused', 4, False), ('micro800', 8, False))
MOST = (('structures', 64), ('members', 512), ('programs', 16), ('tags', 1024), ('other symbols', 64), ('bytes of names', 26752),
        ('bytes of tag names', 40960), ('bytes of templates', 65536), ('bytes of tag memory', 65536))
NO_BIT = 8
PREFIXES = ('program:', 'routine:', 'task:')  # of an other symbol's name, case ignored: its 40 characters stand behind it

HIDDEN = (1, 0, 0)  # marks of a member: hidden, local, access


def control(words, bits):
    """The members of a type of three words: a hidden one, whose bits count down from its last, and two numbers."""
    return ([('CTL', 'DINT', 0, 0, NO_BIT, HIDDEN)] + [(word, 'DINT', 0, 4 + 4 * i, NO_BIT) for i, word in enumerate(words)]
            + [(bit, 'BOOL', 0, (31 - i) // 8, (31 - i) % 8) for i, bit in enumerate(bits)])


# the controller's own types: template ID, handle, size and members; a member is a name, a type, a length, an offset, a bit and marks
OWN = {
    'TIMER': (0xF83, 0x8F63, 12, control(('PRE', 'ACC'), ('EN', 'TT', 'DN'))),
    'COUNTER': (0xF82, 0x000C, 12, control(('PRE', 'ACC'), ('CU', 'CD', 'DN', 'OV', 'UN'))),
    'CONTROL': (0xF81, 0xB771, 12, control(('LEN', 'POS'), ('EN', 'EU', 'DN', 'EM', 'ER', 'UL', 'IN', 'FD'))),
    'STRING': (0xFCE, 0x5EBB, 88, [('LEN', 'DINT', 0, 0, NO_BIT), ('DATA', 'SINT', 82, 4, NO_BIT)]),
}


class Wrong(Exception):
    pass


def wrong(place, words):
    raise Wrong(f'{place}: {words}')


def check(place, item, known):
    """An object with no key but the known ones."""
    if not isinstance(item, dict):
        wrong(place, 'not an object')
    for key in item:
        if key not in known:
            wrong(place, f'unknown key "{key}"; it has {", ".join(known)}')


def listed(place, item, key):
    """The entries of a list, each with its place."""
    found = item.get(key, [])
    at = f'{place}.{key}' if place else key
    if not isinstance(found, list):
        wrong(at, 'not a list')
    return [(f'{at}[{i}]', entry) for i, entry in enumerate(found)]


def whole(place, n, low, high):
    if not isinstance(n, int) or isinstance(n, bool) or not low <= n <= high:
        wrong(place, f'{json.dumps(n)} is not a whole number from {low} to {high}')
    return n


def own_name(place, text):
    """The name that a routine or a task has behind its prefix."""
    if not isinstance(text, str):
        wrong(place, f'{json.dumps(text)} is no name')
    return text


def up(n, step):
    return -(-n // step) * step


class Image:
    def __init__(self):
        self.rows = {'structures': [], 'members': [], 'programs': [], 'tags': [], 'others': []}
        self.names, self.tag_names, self.templates, self.memory = bytearray(), bytearray(), bytearray(), bytearray()
        self.types = {}  # name: (type word, size, alignment, members by name)
        self.ids = {}    # scope: the IDs that are taken

    def name(self, place, text, store, prefixes=()):
        """The start and the length of a name in its store."""
        front = next((p for p in prefixes if isinstance(text, str) and text.lower().startswith(p)), '')
        if not isinstance(text, str) or not 1 <= len(text) <= len(front) + 40 or not all(' ' <= c <= '~' for c in text):
            most = f'at most 40 characters behind {text[:len(front)]}' if front else '1 to 40 characters'
            wrong(place, f'{json.dumps(text)} is no name: {most}, space to ~')
        store += text.encode()
        return [len(store) - len(text), len(text)]

    def type(self, place, name):
        """Type word, size, alignment and members of a type."""
        if not isinstance(name, str):
            wrong(place, f'unknown type {json.dumps(name)}')
        if name in ATOMIC:
            code, size = ATOMIC[name]
            return code, size, size, None
        if name not in self.types and name in OWN:
            template_id, handle, size, members = OWN[name]
            self.structure(place, name, members, size, 4, {'handle': handle, 'template_id': template_id})
        if name not in self.types:
            wrong(place, f'unknown type {json.dumps(name)}')
        return self.types[name]

    # ---- structures

    def structure(self, place, name, members, size, alignment, item):
        """The rows of a structure; a member is a name, a type, a length, an offset, a bit and, of a type of the file's, its marks."""
        rows, by_name = [], {}
        for m in members:
            member, type_name, length, offset, bit = m[:5]
            hidden, local, access = m[5] if len(m) > 5 else (0, 0, 0)
            word = self.type(place, type_name)[0]
            rows.append(self.name(place, member, self.names) + [word, length, offset, bit, hidden, local, access])
            by_name[member] = (type_name, length, offset, bit)
        row = len(self.rows['structures'])
        try:
            text = bytes.fromhex(item.get('template', ''))
        except (ValueError, TypeError):
            wrong(place, 'template: not hex digits')
        template_id = whole(f'{place}.template_id', item.get('template_id', 0x100 + row), 0, 65535)
        handle = whole(f'{place}.handle', item.get('handle', 0x1000 + row), 0, 65535)
        self.rows['structures'].append(self.name(place, name, self.names) + [
            template_id, handle, size, len(self.rows['members']), len(rows), int(bool(item.get('aoi'))), len(self.templates), len(text)])
        self.rows['members'] += rows
        self.templates += text
        self.types[name] = (0x100 + row, size, alignment, by_name)

    def defined(self, place, item):
        """A type of the file: members one behind the other, each aligned; neighbouring BOOLs share a byte, the host, which is hidden."""
        check(place, item, ('name', 'members', 'template', 'template_id', 'handle', 'aoi'))
        own = item.get('name')
        if isinstance(own, str) and (own in self.types or own in ATOMIC):
            wrong(place, f'a second type {json.dumps(own)}')
        members, at, bit, hosts, alignment = [], 0, 8, 0, 4
        for where, m in listed(place, item, 'members'):
            check(where, m, ('name', 'type', 'dim', 'external_access', 'hidden', 'local'))
            marks = (int(bool(m.get('hidden'))), int(bool(m.get('local'))), self.access(where, m))
            dim = whole(f'{where}.dim', m.get('dim', 0), 0, 65535)
            type_name = m.get('type')
            if type_name == 'BOOL' and not dim:
                if bit == 8:
                    members.append((f'ZZZZZZZZZZ{str(own)[:26]}{hosts}', 'SINT', 0, at, NO_BIT, (1, 0, 0)))
                    at, bit, hosts = at + 1, 0, hosts + 1
                members.append((m.get('name'), 'BOOL', 0, at - 1, bit, marks))
                bit += 1
                continue
            if type_name == 'BOOL':
                type_name, dim = 'DWORD', self.words(where, dim)
            size, step = self.type(where, type_name)[1:3]
            at, bit, alignment = up(at, step), 8, max(alignment, step)
            members.append((m.get('name'), type_name, dim, at, NO_BIT, marks))
            at += size * max(dim, 1)
        if not 1 <= at <= 65535:
            wrong(place, f'{at} bytes: a structure has 1 to 65535')
        self.structure(place, own, members, up(at, alignment), alignment, item)

    def words(self, place, bits):
        if bits % 32:
            wrong(place, f'an array of {bits} BOOL: its length is a multiple of 32')
        return bits // 32

    def access(self, place, item):
        given = item.get('external_access', 'Read/Write')
        if not isinstance(given, str) or given not in ACCESS:
            wrong(place, f'unknown external_access {json.dumps(given)}; it is one of {", ".join(ACCESS)}')
        return ACCESS[given]

    # ---- symbols

    def id(self, scope, item):
        """The ID that is given, which is reserved, or the first that is free."""
        if 'instance_id' in item:
            return item['instance_id']
        taken = self.ids.setdefault(scope, set())
        n = next(k for k in range(1, len(taken) + 2) if k not in taken)
        taken.add(n)
        return n

    def other(self, place, scope, name, symbol_type, item):
        word = whole(f'{place}.symbol_type', item.get('symbol_type', symbol_type), 0, 65535)
        self.rows['others'].append([scope] + self.name(place, name, self.names, PREFIXES) + [self.id(scope, item), word])

    def extent(self, place, item):
        """A tag's lengths, its elements, its type's name, and of that the word, the size and the alignment."""
        check(place, item, ('name', 'type', 'dims', 'value', 'external_access', 'instance_id', 'alias', 'offset'))
        dims = item.get('dims', [])
        if not isinstance(dims, list) or len(dims) > 3:
            wrong(place, 'dims is a list of at most three lengths')
        type_name, elements = item.get('type'), 1
        for n in dims:
            elements *= whole(f'{place}.dims', n, 1, 65536)
        if type_name == 'BOOL' and dims:
            if len(dims) > 1:
                wrong(place, 'an array of BOOL has one length')
            type_name, elements = 'DWORD', self.words(place, elements)
        word, size, step = self.type(place, type_name)[:3]
        if size * elements > 65536:
            wrong(place, f'{size * elements} bytes: tag memory has at most 65536')
        return dims, elements, type_name, word, size, step

    def reserve(self, scope, symbols):
        """What symbols ask for by number is theirs: the others get IDs and bytes that are free."""
        for place, item in symbols:
            if isinstance(item, dict) and 'instance_id' in item:
                n = whole(f'{place}.instance_id', item['instance_id'], 1, 0xFFFFFFFF)
                if n in self.ids.setdefault(scope, set()):
                    wrong(place, f'a second symbol with ID {n} in its scope')
                self.ids[scope].add(n)
            if isinstance(item, dict) and 'offset' in item:
                _, elements, _, _, size, _ = self.extent(place, item)
                self.room(whole(f'{place}.offset', item['offset'], 0, 65535) + size * elements)

    def room(self, end):
        self.memory.extend(bytes(max(0, end - len(self.memory))))

    def tag(self, place, scope, item):
        dims, elements, type_name, word, size, step = self.extent(place, item)
        at = item.get('offset', up(len(self.memory), max(step, 4)))
        self.room(at + size * elements)
        self.rows['tags'].append([scope] + self.name(place, item.get('name'), self.tag_names) + [
            self.id(scope, item), word] + (dims + [0, 0, 0])[:3] + [
            elements, self.access(place, item), int(bool(item.get('alias'))), at])
        if 'value' not in item:
            return
        where, given = f'{place}.value', item['value']
        if not dims:
            self.value(where, type_name, at, given)
        elif item['type'] == 'BOOL':
            self.array(where, 'bits', dims[0], size, at, given)
        else:
            self.array(where, type_name, elements, size, at, given)

    # ---- values

    def array(self, place, kind, count, size, at, given):
        def flat(v):
            return [x for e in v for x in flat(e)] if isinstance(v, list) else [v]
        if not isinstance(given, list):
            wrong(place, 'not a list')
        given = flat(given)
        if len(given) > count:
            wrong(place, f'{len(given)} values, {count} elements')
        for i, v in enumerate(given):
            if kind == 'bits':
                self.bit(f'{place}[{i}]', at + i // 8, i % 8, v)
            else:
                self.value(f'{place}[{i}]', kind, at + size * i, v)

    def bit(self, place, at, bit, v):
        if v not in (0, 1):
            wrong(place, f'{json.dumps(v)} is neither true nor false')
        self.memory[at] = self.memory[at] & ~(1 << bit) | int(v) << bit

    def value(self, place, name, at, v):
        members = self.type(place, name)[3]
        if members is not None:
            return self.fields(place, name, members, at, v)
        size = ATOMIC[name][1]
        if name == 'BOOL':
            return self.bit(place, at, 0, v)
        if name in ('REAL', 'LREAL'):
            if isinstance(v, bool) or not isinstance(v, (int, float)):
                wrong(place, f'{json.dumps(v)} is no number')
            try:
                packed = struct.pack('<f' if name == 'REAL' else '<d', v)
            except OverflowError:
                wrong(place, f'{json.dumps(v)} is too large for a {name}')
        else:
            half = 1 << 8 * size - 1
            low, high = (-half, half - 1) if name in SIGNED else (0, 2 * half - 1)
            packed = whole(place, v, low, high).to_bytes(size, 'little', signed=name in SIGNED)
        self.memory[at:at + size] = packed

    def fields(self, place, name, members, at, v):
        if name == 'STRING' and isinstance(v, str):
            text = v.encode('latin-1', 'replace')
            if len(text) > 82:
                wrong(place, f'{len(text)} characters, a STRING has at most 82')
            v = {'LEN': len(text), 'DATA': [b - 256 if b > 127 else b for b in text]}
        if not isinstance(v, dict):
            wrong(place, f'the value of a {name} is an object')
        for key, x in v.items():
            if key not in members:
                wrong(place, f'{name} has no member {json.dumps(key)}')
            kind, length, offset, bit = members[key]
            if bit != NO_BIT:
                self.bit(f'{place}.{key}', at + offset, bit, x)
            elif length:
                self.array(f'{place}.{key}', kind, length, self.type(place, kind)[1], at + offset, x)
            else:
                self.value(f'{place}.{key}', kind, at + offset, x)

    # ---- all of it

    def fill(self, cell):
        check('the file', cell, ('flags', 'types', 'tags', 'programs', 'tasks', 'system_tags'))
        flags = cell.get('flags', {})
        check('flags', flags, tuple(name for name, _, _ in FLAGS))
        self.flags = sum(bit for name, bit, usual in FLAGS if flags.get(name, usual))
        for place, item in listed('', cell, 'types'):
            self.defined(place, item)
        for key in ('tags', 'tasks', 'system_tags'):
            self.reserve(0, listed('', cell, key))
        for k, (place, item) in enumerate(listed('', cell, 'programs')):
            check(place, item, ('name', 'tags', 'routines'))
            self.reserve(k + 1, listed(place, item, 'tags'))
        for place, item in listed('', cell, 'tags'):
            self.tag(place, 0, item)
        for k, (place, item) in enumerate(listed('', cell, 'programs')):
            self.rows['programs'].append(self.name(place, item.get('name'), self.names))
            self.other(place, 0, f'Program:{item["name"]}', 0x1068, {})
            for where, tag in listed(place, item, 'tags'):
                self.tag(where, k + 1, tag)
            for where, routine in listed(place, item, 'routines'):
                self.other(where, k + 1, f'Routine:{own_name(where, routine)}', 0x106D, {})
        for place, item in listed('', cell, 'tasks'):
            check(place, item, ('name', 'instance_id', 'symbol_type'))
            self.other(place, 0, f'Task:{own_name(place, item.get("name"))}', 0x1070, item)
        for place, item in listed('', cell, 'system_tags'):
            check(place, item, ('name', 'instance_id', 'symbol_type'))
            self.other(place, 0, item.get('name'), 0x10C4, item)

    def bytes(self):
        stores = [self.names, self.tag_names, self.templates, self.memory]
        counts = [len(rows) for rows in self.rows.values()] + [len(store) for store in stores]
        for n, (what, most) in zip(counts, MOST):
            if n > most:
                wrong('the file', f'{n} {what}: an image holds at most {most}')
        words = [self.flags] + counts + [w for rows in self.rows.values() for row in rows for w in row]
        return b'CIPLINK1' + struct.pack(f'<{len(words)}I', *words) + b''.join(bytes(store) for store in stores)


def main():
    if len(sys.argv) != 3:
        print('tables.py CELL.json FILE', file=sys.stderr)
        return 2
    source, target = sys.argv[1:]
    try:
        with open(source, encoding='utf-8') as f:
            cell = json.load(f)
        image = Image()
        image.fill(cell)
        made = image.bytes()
        with open(target, 'wb') as f:
            f.write(made)
    except OSError as e:
        print(f'{e.filename}: {e.strerror}', file=sys.stderr)
    except json.JSONDecodeError as e:
        print(f'{source}, line {e.lineno}: {e.msg}', file=sys.stderr)
    except (Wrong, UnicodeDecodeError) as e:
        print(f'{source}: {e}', file=sys.stderr)
    else:
        return 0
    return 1


if __name__ == '__main__':
    sys.exit(main())
