"""What the caches and areas of a site answer, by plain lists: a judge from outside the program.

A cache is a tuple of entries, the most recent first; an area is its bytes and its count of updates; what the spool holds is a
tuple of tasks. docs/CACHE.md, docs/AREA.md, docs/RULES.md and docs/PROTOCOL.md say what this restates. All of it is values
that never change, so a judge can go on from many states at once: after a death it is told whether the call that died was made
(`whole`) or not (`absent`), and where a request asks several times it isn't told which of its asks died.

    answer(conf, entries, now, call)    the answer of a cache, and the entries after it
    turn(area, operation)               the answer of an area, and the area after it
    command, plain_get, plain_set, plain_del, task, Page    packets, each with what it asks and how it is answered
    judge(site, packets, numbers, output)    the worlds that the output may come from; none where it is wrong
"""
from collections import namedtuple

MOST_BYTES = 65_536
INT_LOW, INT_HIGH = -(1 << 63), (1 << 63) - 1
LAST_MOMENT = (1 << 64) - 1
DEAD = b'\xff\xff\xff\xff'
# The fewest word writes of a call that changes something: three words of the record and their number, the gate, a word at its
# place, and the gate again. The first five of these may be refused before the call counts.
FEWEST, FEWEST_BEFORE = 7, 5
# The fewest word writes of a repair: a word at its place, and the gate.
FEWEST_OF_REPAIR = 2

Conf = namedtuple('Conf', 'name items blocksize blocks keysize bitmap purge_lru sweep_on_full clear_on_full')
Entry = namedtuple('Entry', 'key value dies first')
Area = namedtuple('Area', 'content updates')


# ---- a cache

def cache(name, items, blocksize=64, blocks=None, keysize=64, bitmap=False, purge_lru=False, sweep_on_full=False, clear_on_full=False):
    """A configuration; a block is raised to a multiple of 8 bytes, and without `bitmap` there are as many blocks as items."""
    blocks = blocks if bitmap and blocks else items
    return Conf(name, items, (blocksize + 7) // 8 * 8, blocks, keysize, bitmap, purge_lru, sweep_on_full, clear_on_full)


def line_of(conf):
    """The line of a configuration file."""
    flags = ''.join(',%s=1' % name for name in ('bitmap', 'purge_lru', 'sweep_on_full', 'clear_on_full') if getattr(conf, name))
    blocks = ',blocks=%d' % conf.blocks if conf.bitmap else ''
    return 'cache2 = name=%s,items=%d,blocksize=%d%s,keysize=%d%s' % (conf.name, conf.items, conf.blocksize, blocks, conf.keysize, flags)


def longest(conf):
    return min(MOST_BYTES, conf.blocks * conf.blocksize if conf.bitmap else conf.blocksize)


def span(conf, value):
    return max(1, -(-len(value) // conf.blocksize))


def first_run(conf, entries, blocks):
    """The least place of so many free blocks in a row, or None."""
    taken = set()
    for entry in entries:
        taken.update(range(entry.first, entry.first + span(conf, entry.value)))
    for place in range(conf.blocks - blocks + 1):
        if taken.isdisjoint(range(place, place + blocks)):
            return place
    return None


def fits(conf, entries, blocks):
    return len(entries) < conf.items and first_run(conf, entries, blocks) is not None


def alive(conf, entry, now):
    return entry.dies == 0 or conf.purge_lru or now < entry.dies


def room(conf, entries, blocks, now):
    """What is left of the entries where so many blocks are to fit, or None."""
    if fits(conf, entries, blocks):
        return entries
    living = tuple(entry for entry in entries if alive(conf, entry, now))
    if conf.sweep_on_full and fits(conf, living, blocks):
        return living
    if conf.purge_lru:
        for count in range(len(entries), -1, -1):
            if fits(conf, entries[:count], blocks):
                return entries[:count]
    if conf.clear_on_full and fits(conf, (), blocks):
        return ()
    return None


def number_of(value):
    return int.from_bytes(value, 'little', signed=True)


def reckoned(op, number, amount):
    """The result of a number call; a division goes toward zero."""
    if op == 'inc':
        return number + amount
    if op == 'dec':
        return number - amount
    if op == 'mul':
        return number * amount
    quotient = abs(number) // abs(amount)
    return quotient if (number < 0) == (amount < 0) else -quotient


def put(conf, rest, key, value, dies, now, answered):
    """A new entry in front of what there is room beside."""
    blocks = span(conf, value)
    left = room(conf, rest, blocks, now)
    if left is None:
        return ('refused', b'full'), None
    return answered, (Entry(key, value, dies, first_run(conf, left, blocks)),) + left


def dies_at(now, ttl):
    return min(now + ttl, LAST_MOMENT) if ttl else 0


def answer(conf, entries, now, call):
    """The answer of a call, and the entries after it."""
    told, after = answered(conf, entries, now, call)
    return told, entries if after is None else after


def answered(conf, entries, now, call):
    """The same, with None where the entries stay."""
    op = call[0]
    if op == 'clear':
        return ('done',), ()
    if op == 'keys':
        return ('keys', tuple(entry.key for entry in entries if alive(conf, entry, now))), None
    if op == 'sweep':
        living = tuple(entry for entry in entries if alive(conf, entry, now))
        return ('number', len(entries) - len(living)), living
    key = call[1]
    if not 1 <= len(key) <= conf.keysize:
        return ('refused', b'key length'), None
    found = next((entry for entry in entries if entry.key == key and alive(conf, entry, now)), None)
    rest = tuple(entry for entry in entries if entry.key != key)
    if op == 'get':
        if not found:
            return ('missing',), None
        return ('value', found.value), (found,) + rest if conf.purge_lru else None
    if op == 'exists':
        return ('flag', bool(found)), None
    if op == 'del':
        return (('done',), rest) if found else (('missing',), None)
    if op in ('set', 'update'):
        value, ttl = call[2:]
        if len(value) > longest(conf):
            return ('refused', b'too long'), None
        if op == 'set' and found:
            return ('refused', b'exists'), None
        return put(conf, rest, key, value, dies_at(now, ttl), now, ('done',))
    if found and len(found.value) != 8:
        return ('refused', b'not a number'), None
    number = number_of(found.value) if found else 0
    if op == 'num':
        return ('number', number), None
    amount, ttl = call[2:]
    if op == 'div' and amount == 0:
        return ('refused', b'zero divisor'), None
    result = reckoned(op, number, amount)
    if not INT_LOW <= result <= INT_HIGH:
        return ('refused', b'range'), None
    dies = found.dies if found and not ttl else dies_at(now, ttl)
    return put(conf, rest, key, result.to_bytes(8, 'little', signed=True), dies, now, ('number', result))


def may_write(conf, call, told):
    """Whether a cache may write words in a call with this answer, though its entries may stay the same."""
    reads = call[0] in ('exists', 'num', 'keys') or call[0] == 'get' and not conf.purge_lru
    return not reads and told[0] not in ('refused', 'missing')


def most_writes(conf, before, after, call):
    """The most word writes of a call of a cache."""
    key = call[1] if len(call) > 1 else None
    written = [entry for entry in after if entry.key == key] if call[0] in ('set', 'update', 'inc', 'dec', 'mul', 'div') else []
    counted = [entry for entry in before if entry not in after or written and entry.key == key]
    words = sum(words_of_bytes(len(entry.key)) + words_of_bytes(len(entry.value)) for entry in written)
    bits = sum((entry.first + span(conf, entry.value) - 1) // 64 - entry.first // 64 + 1 for entry in counted + written + list(after[:1]))
    return 4 * (32 + 16 * (len(counted) + 1) + words + bits)


def words_of_bytes(size):
    return (size + 7) // 8


# ---- an area

def turn(area, operation):
    """The answer of an operation, and the area after it."""
    op, at, *rest = operation
    content = area.content
    if op == 'updates':
        return ('number', area.updates), area
    size = rest[0] if op == 'read' else len(rest[0]) if op == 'write' else rest[0] // 8
    if at + size > len(content):
        return ('out',), area
    here = content[at:at + size]
    if op == 'read':
        return ('value', here), area
    number = int.from_bytes(here, 'little')
    if op == 'num':
        return ('number', number), area
    if op == 'write':
        new, told = rest[0], ('done',)
    else:
        number = {'setnum': rest[1], 'inc': number + rest[1], 'dec': number - rest[1]}[op] % (1 << rest[0]) if size else 0
        new, told = number.to_bytes(size, 'little'), ('done',) if op == 'setnum' else ('number', number)
    return told, Area(content[:at] + new + content[at + size:], (area.updates + 1) % (1 << 64))


def most_area_writes(area):
    words = words_of_bytes(len(area.content))
    return 6 * (8 + min(8_194, words)) + 3


# ---- answers as texts

def reply_text(told):
    """The reply to a command of a cache."""
    kind = told[0]
    if kind == 'value':
        return b'value\n' + told[1]
    if kind == 'keys':
        return b'keys\n' + b''.join(sized(key) for key in told[1])
    return b'number %d' % told[1] if kind == 'number' else plain_text(told)


def plain_text(told):
    """The text of an answer that a rule puts into a variable."""
    kind = told[0]
    if kind in ('value', 'refused'):
        return told[1]
    if kind == 'number':
        return b'%d' % told[1]
    if kind == 'flag':
        return b'yes' if told[1] else b'no'
    return {'done': b'ok', 'missing': b'', 'out': b'out of area'}[kind]


# ---- packets

def sized(text):
    return len(text).to_bytes(2, 'little') + text


def packet(modifier1, modifier2, block):
    return bytes([modifier1]) + len(block).to_bytes(2, 'little') + bytes([modifier2]) + block


def vars_block(pairs):
    return b''.join(sized(key) + sized(value) for key, value in pairs)


class One:
    """A packet that asks once."""

    def __init__(self, data, ask, reply, shown):
        self.data, self.ask, self.reply, self.shown = data, ask, reply, shown

    def goes(self, answers):
        return ('reply', self.reply(answers[0])) if answers else ('ask', self.ask)


def command(call, number=0, name=''):
    """A command of modifier2 200 to the cache of that number, which has that name; none is sent for the first one of a file."""
    op, *rest = call
    pairs = [(b'cmd', op.encode())]
    pairs += [(b'key', rest[0])] if rest else []
    if op in ('set', 'update'):
        pairs.append((b'value', rest[1]))
    elif len(rest) > 1:
        pairs.append((b'amount', b'%d' % rest[1]))
    if len(rest) > 2 and rest[2]:
        pairs.append((b'expires', b'%d' % rest[2]))
    if name:
        pairs.append((b'cache', name.encode()))

    def text(told):
        return b'missing' if told == ('missing',) else reply_text(told)

    return One(packet(111, 200, vars_block(pairs)), ('cache', number, call), text, '%s%s' % (name and name + ': ', shown_call(call)))


def shown_call(call):
    return ' '.join(word.decode('latin1') if isinstance(word, bytes) and len(word) < 40 else '%d bytes' % len(word)
                    if isinstance(word, bytes) else str(word) for word in call)


def plain_get(key):
    return One(packet(111, 0, key), ('cache', 0, ('get', key)), lambda told: told[1] if told[0] == 'value' else b'', 'plain get %r' % key)


def plain_set(key, value, ttl=0):
    block = sized(key) + sized(value) + (sized(b'%d' % ttl) if ttl else b'')
    return One(packet(111, 1, block), ('cache', 0, ('set', key, value, ttl)), plain_text, 'plain set %r' % key)


def plain_del(key):
    return One(packet(111, 2, key), ('cache', 0, ('del', key)), lambda told: plain_text(told) or b'missing', 'plain del %r' % key)


def row_of(pairs):
    """The row of a task: its variables as a packet, and behind it the body."""
    body = ([value for key, value in pairs if key == b'body'] or [b''])[-1]
    return packet(17, 0, vars_block([pair for pair in pairs if pair[0] != b'body'])) + body


def task(pairs):
    return One(packet(17, 0, vars_block(pairs)), ('spool', row_of(pairs)), lambda told: b'ok %020d' % told[1], 'task')


class Page:
    """A path and the steps of its rules: `(action, ask)`, each of which sends the text of its answer and a bar.

    The action `incache` is a condition, which sends `in|` where it holds. `cache` ends the request where there is a value.
    `spool` sends nothing.
    """

    def __init__(self, name, steps):
        self.name, self.steps = name, steps
        self.shown = 'page ' + name
        self.data = packet(0, 0, vars_block([(b'PATH_INFO', b'/' + name.encode()), (b'REQUEST_METHOD', b'GET')]))

    def rules(self):
        """The lines behind the label of the page."""
        lines = ['route-label = ' + self.name]
        for action, _ in self.steps:
            if action.startswith('incache:'):
                lines.append('route-if = %s send:in|' % action)
            elif action.startswith(('spool:', 'cache:')):
                lines.append('route-run = ' + action)
            else:
                lines += ['route-run = %s,var=V' % action, 'route-run = send:${V}|']
        return lines + ['route-run = last']

    def goes(self, answers):
        body, sent = b'', False
        for k, (action, ask) in enumerate(self.steps):
            if k == len(answers):
                return 'ask', ask
            told = answers[k]
            if action.startswith('incache:'):
                holds = told == ('flag', True)
                body, sent = body + (b'in|' if holds else b''), sent or holds
            elif action.startswith('cache:'):
                if told[0] == 'value':
                    return 'reply', http(b'Content-Type: text/html\r\n', body + told[1])
            elif not action.startswith('spool:'):
                body, sent = body + plain_text(told) + b'|', True
        if sent:
            return 'reply', http(b'', body)
        return 'reply', b'HTTP/1.1 404 Not Found\r\nContent-Type: text/plain\r\nContent-Length: 14\r\n\r\n404 Not Found\n'


def http(headers, body):
    return b'HTTP/1.1 200 OK\r\n' + headers + b'Content-Length: %d\r\n\r\n' % len(body) + body


# ---- a site, and what its workers do

class Site:
    """Caches, the sizes of areas, and pages."""

    def __init__(self, caches=(), areas=(), pages=()):
        self.caches, self.areas, self.pages = tuple(caches), tuple(areas), tuple(pages)

    def text(self):
        lines = ['[uwsgi]', 'buffer-size = 65535']
        lines += [line_of(conf) for conf in self.caches] + ['sharedarea = size=%d' % size for size in self.areas]
        lines += ['route = ^/%s$ goto:%s' % (page.name, page.name) for page in self.pages]
        if self.pages:
            lines.append('route-run = return:404')
        for page in self.pages:
            lines += page.rules()
        return '\n'.join(lines) + '\n'

    def first(self):
        return State(tuple(() for _ in self.caches), tuple(Area(bytes(size), 0) for size in self.areas), ())


State = namedtuple('State', 'caches areas rows')

# A world: the state; the regions whose last call was made and is not yet at its places, each with the most words that its repair
# writes; which number of the list is next; the fewest and the most words that were written since the last death; and what
# was passed since then, where that is watched.
World = namedtuple('World', 'state pending next low high passed died')


def replaced(values, at, value):
    return values[:at] + (value,) + values[at + 1:]


def asked(site, state, ask, now):
    """The answer of an ask, the state after it, its region, and the fewest and the most word writes."""
    kind = ask[0]
    if kind == 'spool':
        rows = state.rows + (ask[1],)
        return ('number', len(rows)), state._replace(rows=rows), None, 0, 0
    number, call = ask[1:]
    if kind == 'cache':
        conf, before = site.caches[number], state.caches[number]
        told, after = answer(conf, before, now, call)
        state = state._replace(caches=replaced(state.caches, number, after))
        most = most_writes(conf, before, after, call) if may_write(conf, call, told) else 0
    else:
        before = state.areas[number]
        told, after = turn(before, call)
        state = state._replace(areas=replaced(state.areas, number, after))
        most = most_area_writes(before) if after != before else 0
    return told, state, (kind, number), FEWEST if after != before else 0, most


def pass_words(world, number, fewest, most):
    """The world behind so many word writes without a death, or None where one had to come."""
    low, high = world.low + fewest, world.high + most
    if number is None:
        return world._replace(low=low, high=high)
    return world._replace(low=low, high=min(high, number - 1)) if low < number else None


def died(world, what, **changed):
    return world._replace(next=world.next + 1, low=0, high=0, passed=(), died=world.died + (what,), **changed)


def repaired(world, number, region, at, watch):
    """A repair, where the region wants one: the ways to die in it, and the world behind it."""
    pending = dict(world.pending)
    most = pending.pop(region, 0)
    if not most:
        return [], world
    ways = []
    if number is not None and world.low < number <= world.high + most:
        ways.append((DEAD + b'\0', died(world, at + ('repair',))))
    world = pass_words(world, number, FEWEST_OF_REPAIR, most)
    if world and watch:
        world = world._replace(passed=world.passed + ((at + ('repair',), True),))
    return ways, world and world._replace(pending=tuple(sorted(pending.items())))


def called(world, number, made, at, watch):
    """A call that may write: the ways to die in it, and the world behind it."""
    _, state, region, fewest, most = made
    ways = []
    if number is not None and world.low < number <= world.high + most - 2:
        ways.append((DEAD + b'\0', died(world, at + ('absent',))))
    if number is not None and world.low + FEWEST_BEFORE < number <= world.high + most:
        pending = tuple(sorted({**dict(world.pending), region: most}.items()))
        ways.append((DEAD + b'\1', died(world, at + ('whole',), state=state, pending=pending)))
    world = pass_words(world, number, fewest, most)
    if world and watch:
        world = world._replace(passed=world.passed + ((at + ('absent',), fewest > 0), (at + ('whole',), fewest > 0)))
    return ways, world


def serve(site, world, packet_at, one, numbers, now, watch=False):
    """All that a packet may come to: pairs of a frame and the world after it."""
    number = numbers[world.next] if world.next < len(numbers) else None
    answers, ways = [], []
    while world:
        kind, what = one.goes(answers)
        if kind == 'reply':
            return ways + [(len(what).to_bytes(4, 'little') + what, world)]
        at, made = (packet_at, len(answers)), asked(site, world.state, what, now)
        more, world = repaired(world, number, made[2], at, watch)
        ways += more
        if world and made[4]:
            more, world = called(world, number, made, at, watch)
            ways += more
        answers.append(made[0])
        world = world and world._replace(state=made[1])
    return ways


def next_frame(output, at):
    """The frame that begins there, or None where it is not whole."""
    if output[at:at + 4] == DEAD:
        return output[at:at + 5] if at + 5 <= len(output) else None
    end = at + 4 + int.from_bytes(output[at:at + 4], 'little')
    return output[at:end] if at + 4 <= len(output) and end <= len(output) else None


def frames_of(output):
    """The frames of an output, or None where the last one is not whole."""
    found, at = [], 0
    while at < len(output):
        frame = next_frame(output, at)
        if frame is None:
            return None
        found.append(frame)
        at += len(frame)
    return found


def judge(site, packets, numbers, output, moments=None, watch=False):
    """The worlds that an output may come from, and a text that says where it is wrong where there is none."""
    frames = frames_of(output)
    if frames is None or len(frames) != len(packets):
        return [], '%s frames for %d packets' % ('broken' if frames is None else len(frames), len(packets))
    worlds = [World(site.first(), (), 0, 0, 0, (), ())]
    for at, (one, frame) in enumerate(zip(packets, frames)):
        now = moments[at] if moments else 0
        ways = [way for world in worlds for way in serve(site, world, at, one, numbers, now, watch)]
        worlds = list(dict.fromkeys(world if watch else world._replace(died=()) for told, world in ways if told == frame))
        if not worlds:
            wanted = b' or '.join(sorted({shown(told) for told, _ in ways})).decode()
            return [], 'packet %d (%s) got %s in place of %s' % (at, one.shown, shown(frame).decode(), wanted)
    return worlds, ''


def shown(frame):
    if frame[:4] == DEAD:
        return b'dead %d' % frame[4]
    return repr(frame[4:] if len(frame) < 300 else frame[4:300] + b'..').encode()
