"""The page bears load: loading, idleness, viewers, floods, memory, and how soon another page has a stroke."""
import os
import statistics
import threading
import time

from rig import *

FAST = ['--rate', '1000000', '--depth', '1000000']
CURVES = ['wb2 pen q%s %d - 12 - %d,%d' % (i, i + 40, 100 + i * 37 % 3500, 100 + i * 91 % 2200) + ''.join(' %d,%d' % ((k * 7 + i) % 9 - 2, (k * 5 + i) % 7 - 3) for k in range(30)) for i in range(5000)]


def renderer_seconds(d):
    """How many seconds of a processor the renderers of a browser took."""
    total, left = 0, [d.service.process.pid]
    children = {}
    for name in os.listdir('/proc'):
        if name.isdigit():
            try:
                with open('/proc/%s/stat' % name) as f:
                    words = f.read().rsplit(')', 1)[1].split()
                children.setdefault(int(words[1]), []).append((int(name), (int(words[11]) + int(words[12])) / os.sysconf('SC_CLK_TCK')))
            except OSError:
                pass
    while left:
        for pid, seconds in children.get(left.pop(), []):
            left.append(pid)
            try:
                with open('/proc/%d/cmdline' % pid) as f:
                    total += seconds if '--type=renderer' in f.read() else 0
            except OSError:
                pass
    return total


def load(d, url):
    d.get('about:blank')
    began = time.time()
    d.get(url)
    until(lambda: d.execute_script('return !!(window.board && board.last() && board.isLoaded())'), 'it is loaded', 180)
    return began


def test_load_five_thousand(srm, shot):
    """5,000 strokes after a reload: shown in 1 s on an idle machine; and the window shows all of them."""
    s = Session(srm, 1, options=FAST)
    d = browser(s.url(0))
    try:
        s.post(0, CURVES)
        until(lambda: d.execute_script('return page().shapes().length') == 5000, 'all is drawn', 90)
        for _ in range(2):
            began, before = load(d, s.url(0)), renderer_seconds(d)
            until(lambda: d.execute_script('return page() && page().shapes().length === 5000 && board.isIdle()'), 'all is painted', 60)
            took = d.execute_script('return board.paintedAt() / 1000')
            print('    painted %.2f s after the page began, %.2f s of a processor' % (took, renderer_seconds(d) - before))
        judge('5,000 strokes are shown', took, 1.0)
        assert painted_right(d)
        # Only what changed is painted: a line on top is one shape, and what lies under an erased one is painted anew.
        before = d.execute_script('return board.paintings()')
        d.execute_script("give({ kind: 'line', id: newStep(), height: 9000, colour: '-', width: 12, style: '-', points: [[10, 10], [300, 300]] })")
        until(lambda: d.execute_script('return page().shapes().length === 5001 && board.pending() === 0 && board.isIdle()'), 'a line is drawn')
        assert d.execute_script('return board.paintings()') - before <= 3, d.execute_script('return board.paintings()') - before
        d.execute_script('erase([page().shapes().at(-1)])')
        until(lambda: d.execute_script('return page().shapes().length === 5000 && board.pending() === 0 && board.isIdle()'), 'it is erased')
        many = d.execute_script('return board.paintings()') - before
        print('    a line and its erasure painted %d shapes of 5,000' % many)
        assert many < 500
        assert painted_right(d)
        shot(d, 'five-thousand')
    finally:
        quit_all([d], s)


COUNTED = """{
    window.fired = { frames: 0, timers: 0 };
    const frame = requestAnimationFrame, timeout = setTimeout, interval = setInterval;
    window.requestAnimationFrame = f => frame(now => { fired.frames++; f(now); });
    window.setTimeout = (f, ms, ...rest) => timeout(() => { fired.timers++; f(...rest); }, ms);
    window.setInterval = (f, ms, ...rest) => interval(() => { fired.timers++; f(...rest); }, ms);
}"""


def idle_counts(all_):
    """How many frames and timers fired in each window within six seconds."""
    for d in all_:
        d.execute_script('fired.frames = fired.timers = 0')
    before = [renderer_seconds(d) for d in all_]
    time.sleep(6)
    counts = [d.execute_script('return [fired.frames, fired.timers]') for d in all_]
    print('    in 6 idle seconds frames and timers: %s; renderers %s of a core' % (counts, ['%.1f%%' % (100 * (renderer_seconds(d) - x) / 6) for d, x in zip(all_, before)]))
    return counts


def test_idle(srm, shot):
    """While nothing happens there is no frame and no timer; a viewer's renderer takes under 10% of a core while another draws."""
    s = Session(srm, 2)
    all_ = [browser(s.url(i)) for i in range(2)]
    try:
        for d, i in zip(all_, range(2)):
            d.execute_cdp_cmd('Page.addScriptToEvaluateOnNewDocument', {'source': COUNTED})
            load(d, s.url(i))
            d.execute_script('showMembers(false)')
        a, b = all_
        draw(a, wave(0.1, 0.2, 20))
        same(all_, 1)
        until(lambda: idle_counts(all_) == [[0, 0], [0, 0]], 'six seconds pass without a frame and a timer', 30)
        points = [(.5 + .3 * math.cos(k / 9), .5 + .3 * math.sin(k / 7)) for k in range(160)]
        before, began = [renderer_seconds(d) for d in all_], time.time()
        draw(a, points, 30)
        took = time.time() - began
        shares = [(renderer_seconds(d) - x) / took for d, x in zip(all_, before)]
        print('    a hand of %.1f s: who draws %.0f%%, the viewer %.0f%% of a core' % (took, *[100 * x for x in shares]))
        judge('a viewer', shares[1], 0.1)
    finally:
        quit_all(all_, s)


WATCHED = "window.longs = []; new PerformanceObserver(list => { for (const e of list.getEntries()) longs.push(e.duration); }).observe({ entryTypes: ['longtask'] })"


def test_hostile_drawops(srm, shot):
    """Each costs little, whatever it says; a flood takes a tenth of the page's time at most, and an honest hand goes on meanwhile."""
    s = Session(srm, 3, options=FAST)
    all_ = [browser(s.url(i), (1000, 700)) for i in range(2)]
    try:
        a, b = all_
        taken = lambda member: a.execute_script('return page().source(arguments[0]).taken', member)
        began = time.time()
        s.post(0, CURVES[:500])
        s.post(2, ['wb2 rect z %d - 200 s 0,0 4000,2500' % k for k in range(1, 101)] + ['note %d' % k for k in range(400)])
        until(lambda: taken(0) == taken(2) == 500 and a.execute_script('return board.isIdle()'), 'all is there', 90)
        print('    1,000 drawops were there after %.1f s' % (time.time() - began))
        name = lambda member: a.execute_script("const p = page(), n = p.source(arguments[0]).taken; return `${arguments[0]}.1-${n}:${p.checkAt(arguments[0], n).toString(16).padStart(8, '0')}`", member)
        everything = ' '.join([name(0), name(2)])
        wide = 'wb2 pen w%d 1 e03131 200 - 2000,1250'
        s.post(2, ['wb2 text t 1 - 40 - 9,9 x'])
        until(lambda: taken(2) == 501, 'a text is there')
        text = a.execute_script("return `2.501:${page().checkAt(2, 501).toString(16).padStart(8, '0')}`")
        floods = {
            'all dropped, again and again': ['wb2 drop d ' + everything] + ['wb2 back d', 'wb2 again d'] * 2000,
            'all moved to and fro': ['wb2 move m 1,1 ' + everything] + ['wb2 again m', 'wb2 back m'] * 2000,
            'wide curves': [body for k in range(20) for body in [wide % k] + ['wb2 more w%d 2000,1250' % k + ' 60,7 -60,-7' * 60] * 20],
            'heights': ['wb2 line h %d - 9 - 0,0 9,9' % (1000000000 - 1 - k) for k in range(3000)],
            'edits of one text': ['wb2 edit e%d %d %s - 40 - edited %d' % (k, k + 1, text, k) for k in range(3000)],
            'names of the page': ['wb2 page %d P%d' % (k + 1, k) for k in range(3000)],
        }
        for what, bodies in floods.items():
            a.execute_script(WATCHED)
            before, began = renderer_seconds(a), time.time()
            thread = threading.Thread(target=flood, args=(s, 2, bodies, 8))
            thread.start()
            draws = [stroke_time(all_) for _ in range(3)]
            thread.join()
            time.sleep(max(0, 10 - (time.time() - began)))
            share = (renderer_seconds(a) - before) / (time.time() - began)
            longest = max(a.execute_script('return longs') or [0])
            print('    %s: %.0f%% of a core in 10 s, longest task %.0f ms; an honest line came after %s ms' % (what, 100 * share, longest, ' '.join('%.0f' % (1000 * t) for t in draws)))
            judge('a hostile task', longest, 50)
            judge('a flood', share, 0.1)
            judge('an honest line, in s', max(draws), 5)
    finally:
        quit_all(all_, s)


def test_attacks(srm, shot):
    """Drops of what is to come drop nothing, a height of 999,999,999 lies above nothing later, and texts stay texts."""
    s = Session(srm, 3, loss=0.2)
    all_ = [browser(s.url(i)) for i in range(2)]
    try:
        a, b = all_
        draw(a, wave(0.05, 0.2, 20))
        same(all_, 1)
        s.post(2, ['wb1 drop 0.1-65536 1.1-65536 2.1-65536', 'wb2 drop zz ' + ' '.join('%d.1-65536:00000000' % i for i in range(3)), 'wb2 line zz 999999999 000000 200 - 0,0 4000,2500', 'wb1 pen 999999999 k - 200 9,9',
                   'wb2 text t 1 - 60 - 9,900 <img src=x onerror="document.title=1">', 'wb2 page 1 <b onclick="x">', 'wb1 name <script>document.title = 2</script>', 'wb2 edit e 1 0.1:00000000 - 60 - x'])
        same(all_, 4)
        tool(a, 'rect')
        draw(a, [(0.1, 0.1), (0.9, 0.9)])
        same(all_, 5)
        tool(b, 'oval')
        draw(b, [(0.2, 0.2), (0.8, 0.8)])
        same(all_, 6)
        assert kinds(a)[-2:] == ['rect', 'oval'], kinds(a)
        assert all(d.title.startswith('Ringyew') and not d.find_elements(By.CSS_SELECTOR, 'img') for d in all_)
        assert all(painted_right(d) for d in all_)
    finally:
        quit_all(all_, s)


def flood(s, i, bodies, seconds):
    """Draws these bodies as member i, about 64,000 bytes a second at most."""
    end, at = time.time() + seconds, 0
    while at < len(bodies) and time.time() < end:
        piece, size = [], 0
        while at < len(bodies) and size < 6400:
            size += len(bodies[at]) + 1
            piece.append(bodies[at])
            at += 1
        s.post(i, piece)
        time.sleep(0.1)


def stroke_time(all_):
    """How long it takes until a line that one draws is in the other's page."""
    a, b = all_
    count = a.execute_script('return page().source(1).taken')
    began = time.time()
    b.execute_script('board.send(`wb2 line k${Math.random().toString(36).slice(2, 8)} ${page().greatest + 1} - 12 - 0,0 900,900`)')
    until(lambda: a.execute_script('return page().source(1).taken') > count, 'an honest line comes', 20)
    return time.time() - began


def test_erased_memory(srm, shot):
    """What was erased leaves the page's memory."""
    s = Session(srm, 1, options=FAST)
    d = browser(s.url(0), (1000, 700), '--js-flags=--expose-gc', '--enable-precise-memory-info')
    try:
        heaps = []
        for turn in range(5):
            count = d.execute_script('return page().source(0).taken')
            s.post(0, ['wb2 pen m%d %d - 12 - 100,100' % (i % 10, 1 + i) + ' 3,4 -3,-2' * 50 for i in range(1000)])
            until(lambda: d.execute_script('return page().source(0).taken') == count + 1000, 'drawn', 60)
            d.execute_script('erase(page().shapes())')
            until(lambda: d.execute_script('return page().shapes().length === 0 && board.isIdle()'), 'erased', 30)
            heaps.append(d.execute_script('for (const p of pages.values()) p.tidy(); gc(); return performance.memory.usedJSHeapSize / 1e6'))
        each = (heaps[-1] - heaps[1]) * 1e6 / 3000
        print('    heap after each 1,000 erased curves of 101 points: %s MB, %d bytes each' % (' '.join('%.2f' % h for h in heaps), each))
        assert each < 1000, each
    finally:
        quit_all([d], s)


def test_pointer_to_pixel(srm, shot):
    """From what the pointer does in one browser until the other has painted it: 100 lines and 100 pieces of curves, median and 95th."""
    s = Session(srm, 2)
    all_ = [browser(s.url(i), (900, 650)) for i in range(2)]
    try:
        a, b = all_
        watch = "window.seen = 0; const n = arguments[0], f = () => { if (page() && page().source(0).taken > n && board.isIdle()) window.seen = Date.now(); else setTimeout(f, 1); }; f()"
        results = {}
        tool(a, 'line')
        a.execute_script("for (const kind of ['pointerup', 'pointermove']) paper.addEventListener(kind, () => { window[kind] = Date.now(); }, true)")
        times = []
        for k in range(100):
            b.execute_script(watch, b.execute_script('return page() ? page().source(0).taken : 0'))
            draw(a, [(.1 + .007 * k, .1), (.12 + .007 * k, .3)], 4)
            times.append(until(lambda: b.execute_script('return window.seen'), 'it is painted', 10) - a.execute_script('return pointerup'))
        results['lines'] = times
        tool(a, 'pen')
        begin(a, [(.1, .5), (.11, .5)]).perform()
        until(lambda: b.execute_script('return board.shapes().length') == 101, 'it is begun')
        times = []
        for k in range(100):
            time.sleep(0.08)
            b.execute_script(watch, b.execute_script('return page().source(0).taken'))
            along(a, ActionChains(a, duration=2), [(.12 + .007 * k, .5 + .05 * math.sin(k))]).perform()
            times.append(until(lambda: b.execute_script('return window.seen'), 'it is painted', 10) - a.execute_script('return pointermove'))
        ActionChains(a).release().perform()
        results['pen'] = times
        for what, times in results.items():
            times = sorted(times)
            print('    %s: median %d ms, 95th of 100 %d ms' % (what, statistics.median(times), times[94]))
        judge('lines', statistics.median(results['lines']), 15)
        judge('pen', statistics.median(results['pen']), 40)
    finally:
        quit_all(all_, s)
