"""Undo and redo of everything, of one tab's own steps."""
import os
import signal

from rig import *


def test_undo_of_everything(srm, shot):
    """Each kind of step is taken back and done again, and the other board shows the same."""
    s = Session(srm, 2, loss=0.2)
    all_ = [browser(s.url(i), DESK) for i in range(2)]
    try:
        a, b = all_
        for kind, points in (('pen', wave(0.05, 0.2)), ('line', [(0.1, 0.4), (0.4, 0.5)]), ('rect', [(0.5, 0.1), (0.7, 0.3)]), ('oval', [(0.75, 0.1), (0.95, 0.35)]), ('arrow', [(0.5, 0.5), (0.8, 0.6)])):
            tool(a, kind)
            draw(a, points)
        write(b, (0.1, 0.7), 'what b wrote')
        same(all_, 6)
        first = shapes(a)

        def turned(step, what, by=a):
            before = shapes(a)
            step()
            until(lambda: all(shapes(d) != before for d in all_), what + ' is done')
            same(all_, None)
            done = shapes(b)
            chord(by, 'z')
            until(lambda: all(shapes(d) == before for d in all_), what + ' is taken back')
            chord(by, 'z', shift=True)
            until(lambda: all(shapes(d) == done for d in all_), what + ' is done again')
            chord(by, 'z')
            until(lambda: all(shapes(d) == before for d in all_), what + ' is taken back again')
        tool(a, 'wipe')
        turned(lambda: draw(a, [(0.06, 0.15), (0.1, 0.3)]), 'an erasure')

        def clear():
            menu(a, 'clear')
            a.find_element(By.ID, 'sure-yes').click()
        turned(clear, 'Clear')
        tool(a, 'choose')
        turned(lambda: draw(a, [(0.5, 0.2), (0.55, 0.3), (0.6, 0.5)], 40), 'a move')
        draw(a, [(0.6, 0.1)])
        grip = a.execute_script('const b = grown(chosenBox(), 8 / scale); return [b[2] / WIDE, b[3] / HIGH]')
        turned(lambda: draw(a, [grip, (grip[0] + 0.05, grip[1] + 0.05), (grip[0] + 0.1, grip[1] + 0.1)], 40), 'a new size')
        draw(a, [(0.6, 0.1)])
        turned(lambda: a.find_element(By.ID, 'dye-561b8a').click(), 'a colour')
        chord(a, 'a')
        turned(lambda: chord(a, 'd'), 'a copy')

        def edit():
            tool(a, 'text')
            draw(a, [(0.12, 0.7)])
            until(lambda: a.switch_to.active_element.get_attribute('id') == 'words', 'the text is edited')
            a.execute_cdp_cmd('Input.insertText', {'text': 'what a made of it'})
            key(a, Keys.ENTER)
        turned(edit, 'an edit of another')
        turned(lambda: write(a, (0.1, 0.85), 'a new text'), 'a text')
        until(lambda: shapes(a) == first, 'the first shape stands there as before')
        # Nothing that others did goes.
        for _ in range(12):
            chord(a, 'z')
        until(lambda: board_idle(a), 'all came back')
        same(all_, 1)
        assert ' text ' in shapes(a)[0] and 'what b wrote' in shapes(a)[0], shapes(a)
    finally:
        quit_all(all_, s)


def test_undo_at_once(srm, shot):
    """Just behind pen-up, in mid-stroke, while the member is stopped, after a reload, in a second tab, with Caps Lock and other layouts: never an older shape, never another tab's."""
    s = Session(srm, 2, loss=0.2)
    all_ = [browser(s.url(i), DESK) for i in range(2)]
    try:
        a, b = all_
        draw(a, wave(0.05, 0.1))
        same(all_, 1)
        first = shapes(a)
        for _ in range(4):
            begin(a, wave(0.05, 0.3, 12)).release().key_down(Keys.CONTROL).send_keys('z').key_up(Keys.CONTROL).perform()
            same(all_, 1)
            until(lambda: shapes(a) == first, 'the first shape stands there as before')
        begin(a, wave(0.05, 0.5)).perform()
        until(lambda: a.execute_script('return shaping.sent > 0'), 'its first piece is on its way')
        chord(a, 'z')
        ActionChains(a).release().perform()
        same(all_, 1)
        until(lambda: shapes(a) == first, 'the first shape stands there as before')
        chord(a, 'z', shift=True)
        same(all_, 2)
        chord(a, 'z')
        same(all_, 1)
        # While the member is stopped, it shows at once, and is so for all later.
        tool(a, 'rect')
        draw(a, [(0.5, 0.5), (0.8, 0.8)])
        same(all_, 2)
        os.kill(s.boards[0].pid, signal.SIGSTOP)
        draw(a, [(0.1, 0.6), (0.3, 0.8)])
        chord(a, 'z')
        chord(a, 'z')
        ink = "const c = document.getElementById('over').getContext('2d').getImageData(0, 0, over.width, over.height).data; let n = 0; for (let i = 3; i < c.length; i += 4) if (c[i] > 200 && c[i - 1] + c[i - 2] + c[i - 3] < 600) n++; return n"
        until(lambda: a.execute_script(ink) == 0, 'what is taken back is shown no more')
        os.kill(s.boards[0].pid, signal.SIGCONT)
        same(all_, 1)
        until(lambda: shapes(a) == first, 'the first shape stands there as before')
        # After a reload.
        reload(a)
        chord(a, 'z', shift=True)
        same(all_, 2)
        chord(a, 'z')
        same(all_, 1)
        chord(a, 'z')
        same(all_, 0)
        # Keys count by their place, whatever Caps Lock or a layout makes of them.
        for letter, shift, count in (('Z', True, 1), ('Z', False, 0), ('\u044f', True, 1), ('w', False, 0)):
            a.execute_script("document.body.dispatchEvent(new KeyboardEvent('keydown', { key: arguments[0], code: 'KeyZ', ctrlKey: true, shiftKey: arguments[1], bubbles: true, cancelable: true }))", letter, shift)
            same(all_, count)
        chord(a, 'z', shift=True)
        same(all_, 1)
        # A second tab of the member takes back its own.
        c = browser(s.url(0), DESK)
        all_.append(c)
        same(all_, 1)
        tool(c, 'oval')
        draw(c, [(0.4, 0.6), (0.6, 0.8)])
        same(all_, 2)
        chord(a, 'z')
        until(lambda: kinds(b) == ['oval'], 'the first tab took back its own')
        chord(c, 'z')
        same(all_, 0)
        chord(c, 'z')
        assert 'Nothing' in c.find_element(By.ID, 'toast').text
        for d, kind in ((c, 'oval'), (a, 'pen')):
            chord(d, 'z', shift=True)
            until(lambda: kind in kinds(b), 'each does its own again')
    finally:
        quit_all(all_, s)
