"""What goes on is seen."""
import os
import signal
import time

from rig import *


def says(d, words, seconds=20):
    until(lambda: words in state(d), 'it says %r, and not %r' % (words, state(d)), seconds)


def test_how_it_stands(srm, shot):
    """Cut off, stopped, gone, not sent yet, and well again: said in 5 s or so, at each width, and not before somebody was heard, nor once all have left."""
    s = Session(srm, 3, loss=0.2)
    all_ = [browser(s.url(i), size) for i, size in enumerate(((1280, 860), (700, 700), (400, 800)))]
    try:
        a, b, c = all_
        draw(a, wave(0.05, 0.2))
        same(all_, 1)
        for d in all_:
            says(d, '3 of 3 here')
        s.relay.cut = {1}
        began = time.time()
        says(b, 'Cut off')
        took = time.time() - began
        print('    cut off after %.1f s' % took)
        judge('being cut off is told, in s', took, 8)
        assert b.find_element(By.ID, 'state').is_displayed()
        until(lambda: 'Cut off' not in state(a), 'who hears somebody is not cut off')
        shot(b, 'cut-off')
        draw(b, wave(0.05, 0.5, 20))
        s.relay.cut = set()
        same(all_, 2)
        says(b, '3 of 3 here')
        # The member is stopped: it says so, at each width, and what is drawn waits and is paler.
        for i, d in enumerate(all_):
            os.kill(s.boards[i].pid, signal.SIGSTOP)
            tool(d, 'line')
            # So wide that some pixel of it is covered whole, in the smallest window too.
            d.execute_script('setWidth(28)')
            draw(d, [(0.1, 0.1 + 0.1 * i), (0.4, 0.1 + 0.1 * i)])
            says(d, "doesn't answer")
            says(d, '1 step not sent yet')
            assert d.find_element(By.ID, 'state').is_displayed()
            r = d.find_element(By.ID, 'state').rect
            assert r['x'] >= 0 and r['x'] + r['width'] <= d.execute_script('return innerWidth'), r
            pale = lambda: d.execute_script("const c = over.getContext('2d').getImageData(0, 0, over.width, over.height).data; let most = 0; for (let i = 3; i < c.length; i += 4) most = Math.max(most, c[i]); return most")
            until(lambda: 60 < pale() < 160, 'what waits is paler')
            os.kill(s.boards[i].pid, signal.SIGCONT)
        same(all_, 5)
        for d in all_:
            says(d, '3 of 3 here')
        # It is killed.
        s.boards[2].kill()
        says(c, "doesn't answer")
        says(a, '2 of 3 here', 30)
        s.boards[2].wait()
        # Who left isn't missed: the last one isn't cut off.
        s.relay.loss = 0
        menu(b, 'leave')
        b.find_element(By.ID, 'sure-yes').click()
        says(b, 'You have left')
    finally:
        quit_all(all_, s)


def test_alone(srm, shot):
    """Nobody is cut off who heard nobody yet, nor once all others have left."""
    s = Session(srm, 2)
    s.relay.cut = {1}
    all_ = [browser(s.url(i)) for i in range(2)]
    try:
        a, b = all_
        end = time.time() + 7
        while time.time() < end:
            assert 'Cut off' not in state(a), state(a)
            time.sleep(0.3)
        says(a, 'Alone so far')
        s.relay.cut = set()
        says(a, '2 of 2 here')
        menu(b, 'leave')
        b.find_element(By.ID, 'sure-yes').click()
        says(b, 'You have left')
        until(lambda: not b.find_element(By.ID, 'hint').is_displayed() and not b.find_elements(By.ID, 'rename'), 'who left is asked to draw no more')
        says(a, 'the others have left')
        end = time.time() + 7
        while time.time() < end:
            assert 'Cut off' not in state(a), state(a)
            time.sleep(0.3)
    finally:
        quit_all(all_, s)


def test_behind(srm, shot):
    """Who comes late is told how far it is."""
    s = Session(srm, 2, loss=0.2)
    s.relay.cut = {1}
    all_ = [browser(s.url(i)) for i in range(2)]
    try:
        a, b = all_
        s.post(0, ['wb2 line q%d %d - 12 - %d,%d %d,900' % (i, i + 1, i, i % 900, i) for i in range(400)])
        until(lambda: len(shapes(a)) == 400, 'all is drawn', 90)
        collect_states(b)
        s.relay.cut = set()
        same(all_, 400, seconds=300)
        said = [text for text in states(b) if text.startswith('Behind: ')]
        print('    %s .. %s' % (said[:1], said[-1:]))
        assert said and all(' of 400 ' in text for text in said[-3:]), states(b)
        numbers = [int(text.split()[3]) for text in said]
        assert numbers == sorted(numbers), 'what is known becomes less: %s' % said
        says(b, '2 of 2 here')
    finally:
        quit_all(all_, s)


def test_started_anew(srm, shot):
    """A member that crashed and runs again: where its page went, and that others take nothing of it."""
    s = Session(srm, 2)
    all_ = [browser(s.url(i)) for i in range(2)]
    try:
        a, b = all_
        draw(b, wave(0.1, 0.2))
        same(all_, 1)
        s.boards[1].kill()
        s.boards[1].wait()
        says(b, "doesn't answer")
        s.boards[1] = s.start(1)
        until(lambda: 'another address' in b.find_element(By.ID, 'veil').text, 'the old page says where the new one is')
        b.get(s.url(1))
        until(lambda: b.execute_script('return !!(window.board && board.last())'), 'the new page is up')
        says(b, 'Started anew')
        assert 'an address that no member used' in b.find_element(By.ID, 'veil').text
        boxes = [b.find_element(By.ID, id_).rect for id_ in ('state', 'veil')]
        assert boxes[0]['y'] + boxes[0]['height'] <= boxes[1]['y'], boxes
        shot(b, 'started-anew')
        assert len(shapes(a)) == 1
    finally:
        quit_all(all_, s)


def test_who_drew(srm, shot):
    """Pointing at a shape says who drew it; equal names show numbers; who is muted is hidden here alone, with all it dropped, raised and named."""
    s = Session(srm, 3)
    all_ = [browser(s.url(i), (1400, 860), DESK) for i in range(3)]
    try:
        a, b, c = all_
        for d, name in ((a, 'Ada'), (b, 'Grace'), (c, 'ada\u200b')):
            d.execute_script('board.send("wb1 name " + arguments[0], "0.0")', name)
        until(lambda: b.execute_script('return [0, 1, 2].map(board.name)') == ['Ada (0)', 'Grace', 'ada\u200b (2)'], 'equal names have numbers')
        tool(a, 'rect')
        draw(a, [(0.2, 0.2), (0.4, 0.4)])
        tool(c, 'oval')
        draw(c, [(0.6, 0.2), (0.8, 0.5)])
        same(all_, 2)
        along(b, ActionChains(b, duration=50), [(0.15, 0.15), (0.2, 0.3)]).perform()
        until(lambda: b.find_element(By.ID, 'tip').is_displayed() and 'Ada (0)' in b.find_element(By.ID, 'tip').text, 'it says who drew')
        shot(b, 'who-drew')
        # The third drops the first one's, raises itself above all, and names the page; whoever mutes it sees nothing of that.
        c.execute_script('erase(page().shapes().filter(shape => shape.source === 0))')
        c.execute_script('board.send("wb2 line high 90 000000 40 - 0,0 4000,2500"); board.send("wb2 page 1 Mine")')
        until(lambda: all(d.execute_script('return board.titles()[0]') == 'Mine' for d in all_), 'it is named')
        same(all_, 2)
        before = shapes(a)
        if not b.execute_script('return isMembered'):
            b.find_element(By.ID, 'who').click()
        press(b, '#list .mute', 1)
        until(lambda: kinds(b) == ['rect'], 'it is hidden')
        assert b.execute_script('return [board.titles()[0], page().greatest, board.name(2)]') == ['First page', 1, 'Member 2']
        assert shapes(a) == before and shapes(c) == before, 'for the others nothing changes'
        assert painted_right(b)
        b.refresh()
        until(lambda: b.execute_script('return !!(window.board && board.last())') and kinds(b) == ['rect'], 'a reload keeps it hidden')
        until(lambda: b.find_elements(By.CSS_SELECTOR, '#list .mute[aria-pressed=true]'), 'the panel says so')
        press(b, '#list .mute[aria-pressed=true]')
        same(all_, 2)
    finally:
        quit_all(all_, s)
