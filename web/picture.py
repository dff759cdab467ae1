#!/usr/bin/env python3
"""The picture of a page as docs/BOARD.md defines it, from whole lists: written a second time, as plainly as the rules, so that drawing.test.mjs can compare.

    python3 web/picture.py < CASES > PICTURES

A line of CASES is JSON: {"lists": [[BODY ..] ..], "muted": [MEMBER ..]}, each body a character a byte. A line of PICTURES is the picture."""
import json
import math
import re
import sys

WIDE, HIGH = 4000, 2500
KINDS = ('line', 'arrow', 'rect', 'oval')
BLANK = [(0x20, 0x20), (0xa0, 0xa0), (0xad, 0xad), (0x34f, 0x34f), (0x61c, 0x61c), (0x115f, 0x1160), (0x1680, 0x1680), (0x17b4, 0x17b5), (0x180b, 0x180f), (0x2000, 0x200f), (0x202a, 0x202f),
         (0x205f, 0x206f), (0x2800, 0x2800), (0x3000, 0x3000), (0x3164, 0x3164), (0xfe00, 0xfe0f), (0xfeff, 0xfeff), (0xffa0, 0xffa0), (0xfff0, 0xfffb), (0x1d173, 0x1d17a), (0xe0000, 0xe0fff)]


class Note(Exception):
    """A body that isn't of the format."""


def want(holds):
    if not holds:
        raise Note


def number(word, least, most):
    want(re.fullmatch('0|[1-9][0-9]*', word, re.ASCII) and len(word) <= 9 and least <= int(word) <= most)
    return int(word)


def integer(word):
    want(re.fullmatch('0|-?[1-9][0-9]*', word, re.ASCII) and len(word) <= 6)
    return int(word)


def pair(word):
    parts = word.split(',')
    want(len(parts) == 2)
    return [integer(part) for part in parts]


def step_of(word):
    """An ID."""
    want(re.fullmatch('[a-z0-9]{1,8}', word))
    return word


def dye(word):
    want(word == '-' or re.fullmatch('[0-9a-f]{6}', word))
    return word


def breadth(word):
    return 0 if word == '-' else number(word, 100, 4000)


def points(words):
    """Each but the first is a step from the one before it."""
    want(words)
    all_, at = [], [0, 0]
    for word in words:
        by = pair(word)
        at = [at[0] + by[0], at[1] + by[1]]
        want(0 <= at[0] <= WIDE and 0 <= at[1] <= HIGH)
        all_.append(at)
    return all_


def text(words):
    said, signs = '', iter(' '.join(words))
    for sign in signs:
        if sign != '\\':
            said += sign
            continue
        after = next(signs, '')
        said += {'n': '\n', '\\': '\\'}.get(after, '\\' + after)
    want(said)
    return said


def title(words):
    said = ' '.join(words)
    want(len(said) <= 40 and any(not any(low <= ord(c) <= high for low, high in BLANK) for c in said))
    want(not any(ord(c) < 32 or 127 <= ord(c) < 160 or ord(c) in (0x2028, 0x2029) for c in said))
    return said


def names(words, is_checked):
    want(words)
    spans = []
    for word in words:
        found = re.fullmatch('([0-9]+)[.]([0-9]+)(?:-([0-9]+))?(?::([0-9a-f]{8}))?', word, re.ASCII)
        want(found and (found[4] is not None) == is_checked)
        first = number(found[2], 1, 65536)
        last = first if found[3] is None else number(found[3], 1, 65536)
        want(first <= last)
        spans.append((number(found[1], 0, 31), first, last, found[4] and int(found[4], 16)))
    return spans


def shape(kind, step, height, colour, size, words, is_old):
    height, colour = number(height, 0, 999999999), dye(colour)
    if kind == 'text':
        size = number(size, 20, 400)
        wide = 0 if is_old else breadth(words.pop(0))
        at = points(words[:1])
        return dict(kind=kind, id=step, height=height, colour=colour, width=size, breadth=wide, points=at, text=text(words[1:]))
    width = number(size, 1, 200)
    style = '-' if is_old else words.pop(0)
    want(style in (('-', 'd') if kind == 'pen' else ('-', 'd', 'f', 's', 'df', 'ds')))
    if kind == 'pen':
        return dict(kind=kind, id=step, height=height, colour=colour, width=width, style=style, points=points(words))
    want(len(words) == 2)
    return dict(kind=kind, id=step, height=height, colour=colour, width=width, style=style, points=[points([word])[0] for word in words])


def first_version(kind, words):
    if kind == 'pen':
        return shape(kind, step_of(words[1]), words[0], words[2], words[3], words[4:], True)
    if kind in ('line', 'rect', 'oval', 'text'):
        return shape(kind, None, words[0], words[1], words[2], words[3:], True)
    if kind == 'more':
        return dict(kind=kind, id=step_of(words[0]), points=points(words[1:]))
    if kind == 'drop':
        return dict(kind=kind, id=None, names=names(words, False))
    want(kind == 'name')
    return dict(kind=kind, id=None, name=title(words))


def second_version(kind, words):
    if kind == 'page':
        return dict(kind=kind, id=None, version=number(words[0], 1, 65536), title=title(words[1:]))
    step = step_of(words[0])
    if kind == 'pen' or kind == 'text' or kind in KINDS:
        return shape(kind, step, words[1], words[2], words[3], words[4:], False)
    if kind == 'more':
        return dict(kind=kind, id=step, points=points(words[1:]))
    if kind == 'drop':
        return dict(kind=kind, id=step, names=names(words[1:], True))
    if kind in ('move', 'size'):
        by = pair(words[1])
        want(all(-9999 <= part <= 9999 for part in by))
        return dict(kind=kind, id=step, by=by, names=names(words[2:], True))
    if kind == 'edit':
        one = names(words[2:3], True)
        want(one[0][1] == one[0][2] and '-' not in words[2])
        return dict(kind=kind, id=step, version=number(words[1], 1, 65536), names=one, colour=dye(words[3]), width=number(words[4], 20, 400), breadth=breadth(words[5]), text=text(words[6:]))
    want(kind in ('back', 'again') and len(words) == 1)
    return dict(kind=kind, id=step)


def said(body):
    """What a body says."""
    raw = body.encode('latin-1')
    try:
        words = raw.decode('utf-8').split(' ')
        want(len(words) > 2 and words[0] in ('wb1', 'wb2'))
        return (first_version if words[0] == 'wb1' else second_version)(words[1], words[2:])
    except (Note, UnicodeDecodeError, IndexError):
        return dict(kind='note', id=None, height=0, text=raw.decode('utf-8', 'replace'))


def checks_of(bodies):
    """FNV-1a of the bodies so far, a line end behind each."""
    check, all_ = 0x811c9dc5, [0x811c9dc5]
    for body in bodies:
        for byte in body.encode('latin-1') + b'\n':
            check = (check ^ byte) * 0x01000193 % 2 ** 32
        all_.append(check)
    return all_


def is_named(part, shape_, lists, checks):
    for source, first, last, check in part['names']:
        if source != shape_['source'] or not first <= shape_['number'] <= last:
            continue
        if check is None:
            if source == part['source'] and shape_['number'] < part['number']:
                return True
        elif last <= len(lists[source]) and checks[source][last] == check:
            return True
    return False


def curve(pen, own):
    """The points of a curve: its own, and those of each `more` that doesn't make them too many; of a wide one those that lie apart."""
    all_ = list(pen['points'])
    for one in own[pen['number']:]:
        if one['kind'] == 'pen' and one['id'] == pen['id']:
            break
        if one['kind'] == 'more' and one['id'] == pen['id'] and len(all_) + len(one['points']) <= 20000:
            all_ += one['points']
    if pen['width'] <= 40:
        return all_
    apart = []
    for at in all_:
        if not apart or math.hypot(at[0] - apart[-1][0], at[1] - apart[-1][1]) >= pen['width'] / 4:
            apart.append(at)
    return apart


def newest(all_, is_in):
    """The one with the greatest version that counts."""
    counting = [one for one in all_ if one['version'] <= len(all_) and is_in(one)]
    return max(counting, key=lambda one: (one['version'], one['source'], one['number']), default=None)


def bounds(shape_, moves, sizes):
    """The box around a shape's points once it is sized about its middle and moved, on the paper."""
    ends = []
    for i, most in enumerate((WIDE, HIGH)):
        low, high = min(p[i] for p in shape_['points']), max(p[i] for p in shape_['points'])
        grows = sum(size['by'][i] for size in sizes)
        side = high - low
        if side and grows:
            side = max(1, min(most, side + grows))
        low -= (side - (high - low)) / 2
        low += max(-low, min(most - side - low, sum(move['by'][i] for move in moves)))
        ends.append((low, low + side))
    return [ends[0][0], ends[1][0], ends[0][1], ends[1][1]]


def heights_of(own, counting):
    """The height of each body: the greatest that counts among those of the shapes up to it."""
    height, all_ = 0, []
    for one in own:
        if one['height'] in counting:
            height = max(height, one['height'])
        all_.append(height)
    return all_


def picture(lists, muted):
    checks = [checks_of(bodies) for bodies in lists]
    # Who is muted said nothing.
    sayings = [[] if source in muted else [dict(said(body), source=source, number=i + 1) for i, body in enumerate(bodies)] for source, bodies in enumerate(lists)]
    everything = [one for own in sayings for one in own]
    last_turns = {(one['source'], one['id']): one['kind'] for one in everything if one['kind'] in ('back', 'again')}

    def is_in(part):
        return part['id'] is None or last_turns.get((part['source'], part['id'])) != 'back'

    def naming(kind, one):
        return [part for part in everything if part['kind'] == kind and is_named(part, one, lists, checks)]

    shapes_of = [[one for one in own if one['kind'] in ('pen', 'text', 'note') or one['kind'] in KINDS] for own in sayings]
    claims = sorted({one['height'] for own in shapes_of for one in own} - {0})
    counting = {claim for i, claim in enumerate(claims) if claim - (i + 1) <= 100}
    shown, greatest = [], 0
    for own, shapes in zip(sayings, shapes_of):
        notes = [one['number'] for one in shapes if one['kind'] == 'note']
        for one, height in zip(shapes, heights_of(shapes, counting)):
            greatest = max(greatest, height)
            if not is_in(one) or any(is_in(drop) for drop in naming('drop', one)):
                continue
            look = dict(one, height=height)
            if one['kind'] == 'note':
                look['place'] = notes.index(one['number'])
                shown.append(look)
                continue
            if one['kind'] == 'pen':
                look['points'] = curve(one, own)
            if one['kind'] == 'text':
                edit = newest(naming('edit', one), is_in)
                if edit:
                    look.update({key: edit[key] for key in ('colour', 'width', 'breadth', 'text')})
            sizes = [] if one['kind'] == 'text' else [part for part in naming('size', one) if is_in(part)]
            look['bounds'] = bounds(look, [part for part in naming('move', one) if is_in(part)], sizes)
            shown.append(look)
    shown.sort(key=lambda one: (one['height'], one['source'], one['number']))
    keys = ('source', 'number', 'kind', 'height', 'colour', 'width', 'style', 'text', 'breadth', 'place', 'points', 'bounds')
    page = newest([one for one in everything if one['kind'] == 'page'], lambda one: True)
    titles = [[one['name'] for one in own if one['kind'] == 'name'][-1:] for own in sayings]
    return dict(shapes=[{key: one[key] for key in keys if key in one} for one in shown], title=page and page['title'], greatest=greatest, names=[name[0] if name else None for name in titles])


for line in sys.stdin:
    case = json.loads(line)
    print(json.dumps(picture(case['lists'], case['muted'])))
