"""Select, move, size, copy, texts, files, exports, pages."""
import base64
import os
import tempfile
import time

from rig import *


def ends(line):
    """The numbers of a shape's place as the page says it."""
    return line.split()[-1]


def hold_right(d, count):
    """So many keys to the right at once, and then all that they drew comes back."""
    d.execute_script("""const key = {key: 'ArrowRight', shiftKey: true, bubbles: true, cancelable: true};
        for (let i = 0; i < arguments[0]; i++) document.getElementById('paper').dispatchEvent(new KeyboardEvent('keydown', key));""", count)
    until(lambda: d.execute_script('return pending.size') == 0, 'the keys came back')


def test_select_move_size_copy(srm, shot):
    """A drag moves, a grip sizes, the keys do both; what two move at once adds up; copies go to another page."""
    s = Session(srm, 2, loss=0.2)
    all_ = [browser(s.url(i), DESK) for i in range(2)]
    try:
        a, b = all_
        tool(a, 'rect')
        draw(a, [(0.2, 0.2), (0.4, 0.4)])
        tool(b, 'oval')
        draw(b, [(0.6, 0.2), (0.8, 0.5)])
        same(all_, 2)
        box = lambda d, n: d.execute_script('return boundsOf(page().shapes()[arguments[0]])', n)
        was = box(a, 0)
        for d in all_:
            tool(d, 'choose')
        # At once: both moves count.
        for d in all_:
            begin(d, [(0.2, 0.3), (0.25, 0.35), (0.3, 0.4)], 30).perform()
        for d in all_:
            ActionChains(d).release().perform()
        same(all_, 2)
        moved = box(a, 0)
        assert all(abs(moved[i] - was[i] - (800, 500)[i % 2]) < 30 for i in range(4)), (was, moved)
        chord(b, 'z')
        until(lambda: all(abs(box(d, 0)[0] - was[0] - 400) < 15 for d in all_), 'each takes back its own move')
        # A grip sizes, with the other corner where it was.
        draw(a, [(0.3, 0.4)]) if not a.execute_script('return board.chosen().length') else None
        grip = a.execute_script('const b = grown(chosenBox(), 8 / scale); return [b[2] / WIDE, b[3] / HIGH]')
        before = box(a, 0)
        draw(a, [grip, (grip[0] + 0.03, grip[1] + 0.04), (grip[0] + 0.1, grip[1] + 0.2)], 40)
        until(lambda: all(box(d, 0)[2] - before[2] > 300 for d in all_), 'it is larger for all')
        after = box(b, 0)
        assert abs(after[0] - before[0]) < 8 and abs(after[1] - before[1]) < 8 and abs(after[3] - before[3] - 500) < 30, (before, after)
        shot(a, 'sized')
        # By keys: a step right and down, larger, and never off the page.
        key(a, Keys.ARROW_RIGHT, Keys.ARROW_DOWN)
        until(lambda: all(abs(box(d, 0)[0] - after[0] - 50) < 2 and abs(box(d, 0)[1] - after[1] - 50) < 2 for d in all_), 'moved by keys')
        chord(a, Keys.ARROW_RIGHT)
        until(lambda: all(box(d, 0)[2] - after[2] > 90 for d in all_), 'sized by keys')
        far = lambda *keys: ActionChains(a).key_down(Keys.SHIFT).send_keys(*keys).key_up(Keys.SHIFT).perform()
        far(*[Keys.ARROW_RIGHT] * 20)
        until(lambda: all(box(d, 0)[2] == 4000 for d in all_), 'it stays on the page')
        far(Keys.ARROW_LEFT)
        until(lambda: all(box(d, 0)[2] == 3750 for d in all_), 'and comes back at once')
        hold_right(a, 12)
        hold_right(a, 8)
        until(lambda: all(box(d, 0)[2] == 4000 for d in all_), 'keys that come faster than the member answers leave it at the edge')
        far(Keys.ARROW_LEFT)
        until(lambda: all(box(d, 0)[2] == 3750 for d in all_), 'and from there it comes back at once too')
        # Copies, cut and paste, onto another page.
        chord(a, 'a')
        chord(a, 'd')
        same(all_, 4)
        chord(a, 'a')
        chord(a, 'x')
        same(all_, 0)
        a.find_element(By.ID, 'more').click()
        a.find_element(By.ID, 'paper').send_keys('')
        key(a, 'c')
        chord(a, 'v')
        same(all_, 4, a.execute_script('return here'))
        assert a.execute_script('return board.shapes().every(line => !/ - 12 /.test(line))'), 'copies keep the colours of those who drew'
        assert painted_right(a), 'the window shows what the page has'
    finally:
        quit_all(all_, s)


def test_texts(srm, shot):
    """Texts break at a width; one that is too long says so and loses nothing; Esc keeps it; others edit it; the eraser meets what is seen."""
    s = Session(srm, 2, loss=0.2)
    all_ = [browser(s.url(i), DESK) for i in range(2)]
    try:
        a, b = all_
        long = ' '.join('word%d' % k for k in range(300))
        tool(a, 'text')
        draw(a, [(0.05, 0.05)])
        until(lambda: a.switch_to.active_element.get_attribute('id') == 'words', 'the text is begun')
        a.execute_cdp_cmd('Input.insertText', {'text': long})
        assert 'more than one drawop holds' in a.find_element(By.ID, 'long').text
        key(a, Keys.ESCAPE)
        same(all_, None)
        texts = b.execute_script('return page().shapes().map(shape => shape.text)')
        assert len(texts) > 1 and ' '.join(texts).split() == long.split(), texts
        lines = b.execute_script('return page().shapes().map(shape => [linesOf(shape).length, boxOf(shape)[2] - boxOf(shape)[0], shape.breadth])')
        assert all(count > 3 and wide <= breadth for count, wide, breadth in lines), lines
        chord(a, 'z')
        same(all_, 0)
        write(a, (0.1, 0.2), 'short')
        same(all_, 1)
        # Two edit it at once: one wins for all, and its undo shows the other.
        for d in all_:
            tool(d, 'text')
            draw(d, [(0.11, 0.2)])
            until(lambda: d.switch_to.active_element.get_attribute('id') == 'words', 'the text is edited')
        for d, words in ((a, 'by a'), (b, 'by b')):
            d.execute_script('words.value = arguments[0]', words)
        for d in all_:
            key(d, Keys.ENTER)
        same(all_, 1)
        until(lambda: b.execute_script('return (page().shapes()[0].edits || []).length') == 2, 'both edits came')
        same(all_, 1)
        assert b.execute_script('return page().shapes()[0].text') == 'by b'
        chord(b, 'z')
        until(lambda: all(d.execute_script('return page().shapes()[0].text') == 'by a' for d in all_), 'the other one shows')
        # Emptied, it is erased; and who edits what another erased keeps what was written.
        for d in all_:
            draw(d, [(0.11, 0.2)])
            until(lambda: d.switch_to.active_element.get_attribute('id') == 'words', 'the text is edited')
        b.execute_script("words.value = ''")
        key(b, Keys.ENTER)
        until(lambda: not shapes(b), 'it is erased')
        until(lambda: a.execute_script('return page().shapes().length === 0'), 'for all')
        a.execute_script("words.value = 'kept'")
        key(a, Keys.ENTER)
        same(all_, 1)
        assert ' kept ' in shapes(b)[0]
        # The eraser meets what is seen: a wide line at its edge, a filled shape within, and nothing that it covers.
        chord(a, 'z')
        a.execute_script("board.send('wb2 line l1 1 - 20 - 1000,1500 1400,1500'); board.send('wb2 rect r1 9 - 12 s 800,1200 1600,2000'); board.send('wb2 line l2 9 - 200 - 2400,600 3400,600'); board.send('wb2 text t1 9 - 100 - 2400,1500 A')")
        same(all_, 4)
        tool(a, 'wipe')
        draw(a, [(0.7, 0.275), (0.71, 0.275)])
        same(all_, 3)
        assert 'line - 200' not in ' '.join(shapes(b))
        draw(a, [(0.8, 0.62), (0.9, 0.62)])
        same(all_, 3)
        draw(a, [(0.28, 0.6), (0.3, 0.6)])
        same(all_, 2)
        assert not any(' rect ' in line for line in shapes(b)) and any(' line ' in line for line in shapes(b)), shapes(b)
    finally:
        quit_all(all_, s)


def test_save_and_open(srm, shot):
    """A board of several pages is saved, opened in another session with progress, equal there; saved again it is the same file; one Undo takes it back."""
    s, other, all_ = Session(srm, 1), Session(srm, 2, options=['--rate', '64000']), []
    try:
        a, b, c = all_ = [browser(s.url(0), DESK), browser(other.url(0), DESK), browser(other.url(1), DESK)]
        a.find_element(By.ID, 'fill').click()
        tool(a, 'rect')
        draw(a, [(0.1, 0.1), (0.35, 0.4)])
        tool(a, 'pen')
        draw(a, wave(0.05, 0.6))
        write(a, (0.5, 0.6), 'Gr\u00f6\u00dfe & "quoted" <b>text</b> that is long enough to break into several lines by its breadth, as it should')
        same([a], 3)
        tool(a, 'choose')
        draw(a, [(0.15, 0.2), (0.2, 0.25), (0.3, 0.3)], 40)
        a.find_element(By.ID, 'more').click()
        name_page(a, 'Plan <b>\u00e9')
        bodies = ['wb2 pen q%s %d - 12 - %d,%d' % (i, i + 1, 100 + i * 37 % 3500, 100 + i * 91 % 2200) + ''.join(' %d,%d' % ((k * 7 + i) % 9 - 2, (k * 5 + i) % 7 - 3) for k in range(20)) for i in range(500)]
        s.post(0, bodies, a.execute_script('return here'))
        same([a], 500, None, 60)
        saved = a.execute_script('return board.file()')
        pictures = [a.execute_script('return board.image(arguments[0])', page) for page in a.execute_script('return board.pages()')]
        folder = tempfile.mkdtemp()
        with open(os.path.join(folder, 'a.board'), 'w') as f:
            f.write(saved)
        b.execute_script("document.getElementById('file').hidden = false")
        collect_states(b)
        b.find_element(By.ID, 'file').send_keys(os.path.join(folder, 'a.board'))
        until(lambda: len(b.execute_script('return board.pages()')) == 2 and board_idle(b), 'it is opened', 90)
        said = [text for text in states(b) if text.startswith('Opening: ')]
        print('    %s .. %s' % (said[:1], said[-1:]))
        assert said, states(b)
        first, second = b.execute_script('return board.pages()')
        same([b, c], 500, second, 60)
        same([b, c], 3, first)
        assert [b.execute_script('return board.image(arguments[0])', page) for page in (first, second)] == pictures, 'the pictures are equal'
        assert b.execute_script('return board.titles()')[1] == 'Plan <b>\u00e9'
        assert b.execute_script('return board.file()') == saved, 'saved again it is the same file'
        assert c.execute_script('return page().shapes().every(shape => shape.source === 0)')
        chord(b, 'z')
        until(lambda: all(not shapes(d, page) for d in (b, c) for page in (first, second)), 'one Undo takes it back')
        chord(b, 'z', shift=True)
        same([b, c], 500, second, 60)
        # What is no board says so.
        b.execute_script("board.open('<script>alert(1)</script>')")
        assert 'no saved board' in b.find_element(By.ID, 'toast').text
    finally:
        quit_all(all_, s, other)


UNLIKE = """
    const done = arguments[0], compare = (svg, canvas) => new Promise(ok => {
        const image = new Image();
        image.onload = () => {
            const c = document.createElement('canvas'); c.width = canvas.width; c.height = canvas.height;
            const x = c.getContext('2d'); x.drawImage(image, 0, 0, c.width, c.height);
            const a = x.getImageData(0, 0, c.width, c.height).data, b = canvas.getContext('2d').getImageData(0, 0, c.width, c.height).data;
            let far = 0; for (let i = 0; i < a.length; i += 4) if (Math.max(Math.abs(a[i] - b[i]), Math.abs(a[i + 1] - b[i + 1]), Math.abs(a[i + 2] - b[i + 2])) > 32) far++;
            ok([far, a.length / 4]);
        };
        image.onerror = () => ok('no image'); image.src = 'data:image/svg+xml;base64,' + btoa(unescape(encodeURIComponent(svg)));
    });
    (async () => done([await compare(board.svg(), canvasOf(page(), 2000)), await compare(svgOfAll(drawnPages(), titleOf), canvasOfAll(drawnPages(), 2000))]))();"""


def test_pictures_agree(srm, shot):
    """A page, and all pages, as SVG and as PNG: at most 1 pixel of 1,000 differs by more than 32 of 255."""
    s = Session(srm, 1)
    d = browser(s.url(0), DESK)
    try:
        s.post(0, ['wb2 pen a 1 - 12 d 300,300' + ' 30,9 25,-14' * 30, 'wb2 pen b 2 e03131 90 - 300,900' + ' 30,19 25,-24' * 20, 'wb2 rect c 3 2f9e44 12 df 1500,300 2500,900', 'wb2 oval d 4 1971c2 20 s 2600,300 3600,1200', 'wb2 arrow e 5 - 30 d 400,1500 1800,1900',
                   'wb2 text f 6 - 90 900 2200,1500 Wide words break at the breadth of a text, \\nand at line ends: <&> \\\\ \u00e9\u4e2d', 'a note', 'wb2 line g 7 561b8a 3 - 100,2400 3900,1300'])
        s.post(0, ['wb2 oval h 1 - 200 - 500,500 3500,2000', 'wb2 page 1 A second page'], '0.3')
        until(lambda: len(shapes(d, '0.0')) == 8 and len(shapes(d, '0.3')) == 1, 'all is drawn')
        d.execute_script("const p = page(), s = p.shapes().find(s => s.kind === 'oval'); sizeShapes([s], boxOf(s), [2600, 300, 3900, 1500])")
        until(lambda: board_idle(d), 'all came back')
        for what in d.execute_async_script(UNLIKE):
            print('    %s of %s pixels are unlike' % tuple(what))
            assert what[0] * 1000 <= what[1], what
        shot(d, 'kinds')
    finally:
        quit_all([d], s)


def test_pages_have_names(srm, shot):
    """Names of pages are seen by all; two members, and two tabs of one, who press + at once get two pages."""
    s = Session(srm, 2, loss=0.2)
    all_ = [browser(s.url(i), DESK) for i in (0, 0, 1)]
    try:
        a, twin, b = all_
        for d in all_:
            d.execute_script("setTimeout(() => document.getElementById('more').click(), 1500 - Date.now() % 1500)")
        until(lambda: all(d.execute_script('return here') != '0.0' for d in all_), 'each began a page')
        for d, kind in zip(all_, ('rect', 'oval', 'line')):
            tool(d, kind)
        for d in all_:
            draw(d, [(0.2, 0.2), (0.5, 0.5)])
        until(lambda: all(len(d.execute_script('return board.pages()')) == 4 and board_idle(d) for d in all_), 'three new pages')
        until(lambda: sorted(kind for page in a.execute_script('return board.pages()') for kind in kinds(a, page)) == ['line', 'oval', 'rect'], 'what each drew came')
        for d, kind in zip(all_, ('rect', 'oval', 'line')):
            assert kinds(d) == [kind], 'each stays on its own'
        name_page(b, 'Sketch <b>\u00e9')
        until(lambda: all('Sketch <b>\u00e9' in d.execute_script('return board.titles()') for d in all_), 'all see the name')
        until(lambda: 'Sketch <b>\u00e9' in a.execute_script("return [...document.querySelectorAll('#pages .tab')].map(tab => tab.textContent)"), 'the name stands on the tab')
        name_page(b, '\u2800\u200b')
        time.sleep(0.5)
        assert 'Sketch <b>\u00e9' in a.execute_script('return board.titles()'), 'an unseen name names nothing'
    finally:
        quit_all(all_, s)
