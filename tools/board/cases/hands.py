"""Hands and eyes: phones, what a reload keeps, names, keys alone, a screen reader."""
import time

from rig import *

PHONES = ((390, 844), (360, 640), (320, 568), (667, 375))


def test_phone(srm, shot):
    """On phones each button is 44 px or more, within the window, and the paper is seen; a finger draws, two zoom."""
    s = Session(srm, 2)
    d = browser(s.url(0), (500, 900))
    try:
        for w, h in PHONES:
            d.execute_cdp_cmd('Emulation.setTouchEmulationEnabled', {'enabled': True})
            be_phone(d, w, h)
            d.execute_script('showMembers(true)')
            settled(d)
            bad = d.execute_script("""return [...document.querySelectorAll('button, input')].filter(e => e.offsetWidth && !e.closest('.unseen')).map(e => [e.id || e.className || e.textContent, e.getBoundingClientRect()])
                .filter(([id, r]) => r.width < 44 || r.height < 44).map(([id, r]) => [id, Math.round(r.width), Math.round(r.height)])""")
            assert bad == [], ((w, h), bad)
            d.execute_script('showMembers(false)')
            settled(d)
            out = d.execute_script("return [...document.querySelectorAll('#tools button, #foot > :not(#pages) button')].filter(e => { const r = e.getBoundingClientRect(); return r.width && (r.left < 0 || r.top < 0 || r.right > innerWidth + 1 || r.bottom > innerHeight + 1); }).map(e => e.id)")
            assert out == [], ((w, h), out)
            paper = d.find_element(By.ID, 'paper').rect
            assert paper['width'] >= 120 and paper['height'] >= 75, ((w, h), paper)
        be_phone(d, 390, 844)
        tool(d, 'pen')
        r = d.find_element(By.ID, 'paper').rect
        at = lambda x, y: (r['x'] + x * r['width'], r['y'] + y * r['height'])
        touch_ = lambda kind, places: d.execute_cdp_cmd('Input.dispatchTouchEvent', {'type': kind, 'touchPoints': [{'x': x, 'y': y, 'id': i} for i, (x, y) in enumerate(places)]})
        touch_('touchStart', [at(0.2, 0.2)])
        for i in range(20):
            touch_('touchMove', [at(0.2 + 0.02 * i, 0.2 + 0.01 * i)])
        touch_('touchEnd', [])
        until(lambda: kinds(d) == ['pen'], 'a finger drew')
        touch_('touchStart', [at(0.4, 0.5)])
        touch_('touchStart', [at(0.4, 0.5), at(0.6, 0.5)])
        for i in range(10):
            touch_('touchMove', [at(0.4 - 0.02 * i, 0.5), at(0.6 + 0.02 * i, 0.5)])
        touch_('touchEnd', [])
        until(lambda: d.execute_script('return zoom') > 1.5, 'two fingers zoom')
        time.sleep(0.3)
        assert kinds(d) == ['pen'], 'and draw nothing'
        shot(d, 'phone')
    finally:
        quit_all([d], s)


def test_reload_keeps(srm, shot):
    """Page, zoom, ink, width, dash, fill, tool and dark stay over a reload, and what wasn't sent yet is sent."""
    s = Session(srm, 1)
    d = browser(s.url(0), (1280, 860), DESK)
    try:
        d.find_element(By.ID, 'more').click()
        tool(d, 'rect')
        draw(d, [(0.2, 0.2), (0.5, 0.5)])
        until(lambda: kinds(d) == ['rect'], 'drawn')
        d.execute_script('zoomAt(2)')
        for k in ('d', '3', ']', 's', 'f', 'o'):
            key(d, k)
        what = 'return [here, zoom, middle, colour, width, isDark, isDashed, fill, tool]'
        before = d.execute_script(what)
        # What is drawn just before a reload isn't lost.
        d.execute_script("give({ kind: 'line', id: newStep(), height: 5, colour: '-', width: 12, style: '-', points: [[100, 100], [900, 100]] }); window.isOld = true; location.reload()")
        reloaded(d)
        assert d.execute_script(what) == before, (before, d.execute_script(what))
        assert before[3:8] == ['9b1c1c', 28, True, True, 'f'], before
        assert not d.find_elements(By.CSS_SELECTOR, '#pages .tab.new'), 'nothing is new behind a reload'
        until(lambda: sorted(kinds(d)) == ['line', 'rect'], 'what was on its way is there, once')
        time.sleep(1.5)
        assert sorted(kinds(d)) == ['line', 'rect']
    finally:
        quit_all([d], s)


def test_names_are_seen(srm, shot):
    """No name is empty to the eye."""
    s = Session(srm, 2)
    all_ = [browser(s.url(i)) for i in range(2)]
    try:
        a, b = all_
        for name in ('\u200b\u200b', '\u2800', '\u3164 \u00ad', '\U000e0041', '\u115f', '   ', 'Grace'):
            key(a, 'n')
            until(lambda: a.switch_to.active_element.tag_name == 'input', 'the name is asked for')
            a.execute_script('document.activeElement.value = arguments[0]', name)
            key(a, Keys.ENTER)
            time.sleep(0.3)
            s.post(0, ['wb1 name ' + name])
            until(lambda: board_idle(a), 'it came back')
            time.sleep(0.3)
            if name != 'Grace':
                assert b.execute_script('return board.name(0)') == 'Member 0', ascii(name)
        until(lambda: b.execute_script('return board.name(0)') == 'Grace', 'a name that is seen')
    finally:
        quit_all(all_, s)


def test_names_of_a_room(srm, shot):
    """Members of a room have its names, in the list, in what is said and on the window, until one takes another name."""
    s = RoomSession(srm, 2)
    all_ = [browser(s.url(i)) for i in range(2)]
    try:
        a, b = all_
        for d, name in zip(all_, ('ada', 'grace')):
            assert d.title == 'Ringyew 7: ' + name
            assert d.execute_script('return [0, 1].map(board.name)') == ['ada', 'grace']
            until(lambda: [it.get_attribute('textContent') for it in d.find_elements(By.CSS_SELECTOR, '#list bdi')] == ['ada', 'grace'], 'the list has both')
        draw(b, wave(0.2, 0.4))
        until(lambda: 'grace draws' in a.find_element(By.ID, 'said').get_attribute('textContent'), 'it is said who draws')
        same(all_, 1)
        key(a, 'n')
        until(lambda: a.switch_to.active_element.tag_name == 'input', 'the name is asked for')
        a.execute_script('document.activeElement.value = arguments[0]', 'Lovelace')
        key(a, Keys.ENTER)
        until(lambda: b.execute_script('return [0, 1].map(board.name)') == ['Lovelace', 'grace'], 'one has another name')
    finally:
        quit_all(all_, s)


def test_keys_and_reader(srm, shot):
    """All by keys alone: draw, select the next shape, move, size, copy, erase, take back; and what happens is said to a screen reader."""
    s = Session(srm, 2)
    all_ = [browser(s.url(i), (1280, 860), DESK) for i in range(2)]
    try:
        a, b = all_
        heard = lambda words: until(lambda: words in a.find_element(By.ID, 'said').get_attribute('textContent'), 'it is said: ' + words)
        key(a, 'c', 'r', Keys.ENTER, *[Keys.ARROW_RIGHT] * 6, *[Keys.ARROW_DOWN] * 4, Keys.ENTER)
        same(all_, 1)
        tool(b, 'oval')
        draw(b, [(0.1, 0.1), (0.3, 0.3)])
        same(all_, 2)
        heard('Member 1 draws')
        key(a, '.')
        heard('rectangle by Member 0')
        key(a, '.')
        heard('ellipse by Member 1')
        heard('2 of 2')
        was = a.execute_script('return boundsOf([...chosen][0])')
        key(a, Keys.ARROW_RIGHT, Keys.ARROW_DOWN)
        until(lambda: b.execute_script('return boundsOf(page().shapes()[1])')[:2] == [was[0] + 50, was[1] + 50], 'moved')
        chord(a, Keys.ARROW_DOWN)
        until(lambda: b.execute_script('return boundsOf(page().shapes()[1])')[3] > was[3] + 80, 'sized')
        chord(a, 'd')
        same(all_, 3)
        key(a, Keys.DELETE)
        same(all_, 2)
        chord(a, 'z')
        same(all_, 3)
        heard('taken back')
        until(lambda: '3 shapes' in a.find_element(By.ID, 'paper').get_attribute('aria-label'), 'the paper is labelled with its shapes')
        # Each control is reached by Tab, and has a name; what changes is in live regions.
        assert a.execute_script("return ['said', 'toast', 'veil'].every(id => $(id).matches('[aria-live], [role=status], [role=alert]'))")
        reached = set()
        for _ in range(60):
            key(a, Keys.TAB)
            reached.add(a.execute_script('return document.activeElement.id || document.activeElement.className'))
        for id_ in ('paper', 'tool-pen', 'menu-button', 'who', 'state', 'undo'):
            assert id_ in reached, (id_, reached)
    finally:
        quit_all(all_, s)
