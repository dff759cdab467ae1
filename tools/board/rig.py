"""What tests of boards in a browser share: members of a session behind the relay, Chromium, and what a hand does there."""
import contextlib
import http.client
import http.server
import json
import math
import os
import pathlib
import re
import shutil
import signal
import socket
import subprocess
import sys
import tempfile
import time

HERE = os.path.dirname(os.path.abspath(__file__))
CRATE = pathlib.Path(HERE).parent.parent / 'crates/srm_main'
sys.path[:0] = [HERE, os.path.dirname(HERE)]
sys.dont_write_bytecode = True
os.environ['SE_OFFLINE'] = 'true'
# The one without a window begins in a quarter of the time. Debian's script before it outlives the driver's signal, so it is called itself.
WINDOWLESS = '/usr/lib/chromium/chromium-headless-shell'
CHROMIUM, DRIVER = WINDOWLESS if os.access(WINDOWLESS, os.X_OK) else shutil.which('chromium'), shutil.which('chromedriver')
try:
    import selenium
except ImportError:
    selenium = None
if not (CHROMIUM and DRIVER and selenium):
    print('skipped: chromium, chromedriver and selenium for python3 are wanted (README.md names the Debian packages)')
    sys.exit(0)
from selenium import webdriver
from selenium.webdriver.chrome.service import Service
from selenium.webdriver.common.action_chains import ActionChains
from selenium.webdriver.common.actions.action_builder import ActionBuilder
from selenium.webdriver.common.actions.pointer_input import PointerInput
from selenium.webdriver.common.by import By
from selenium.webdriver.common.keys import Keys
from selenium.common.exceptions import SessionNotCreatedException, StaleElementReferenceException, TimeoutException

import archive
import checked
import front
from relay import Relay

# Whether the page of web/ stands in front of the program's own.
FRONT = False
# Whether a test fails where something took too long for an idle machine.
TIMES = False
# So many times as long a busy machine may take before a test gives up.
PATIENCE = 10


def free_ports(count, kind=socket.SOCK_DGRAM):
    held = [socket.socket(socket.AF_INET, kind) for _ in range(count)]
    for s in held:
        s.bind(('127.0.0.1', 0))
    ports = [s.getsockname()[1] for s in held]
    for s in held:
        s.close()
    return ports


# Sessions and browsers that were begun: `end_all` ends those that a test left behind.
BEGUN = []


def end_all():
    while BEGUN:
        it = BEGUN.pop()
        with contextlib.suppress(Exception):
            if isinstance(it, Session):
                it.close()
            elif it.service.process.poll() is None:
                it.quit()


class Session:
    """Members of one session, each with a board or, as a live node, without."""

    def __init__(self, srm, boards, nodes=0, options=(), **faults):
        self.udp = free_ports(boards + nodes)
        self.http = free_ports(boards, socket.SOCK_STREAM)
        self.boards, self.nodes, self.fronts = [], [], []
        BEGUN.append(self)
        self.relay = Relay(self.udp, **faults)
        self.relay.start()
        self.srm, self.options = srm, list(options)
        self.roots = [None] * boards
        for i in range(boards):
            self.boards.append(self.start(i))
        self.fronts = [front.Front(port) for port in self.http] if FRONT else []
        self.nodes = [subprocess.Popen([*srm, 'node', '--session', '7', '--me', str(i), '--live'] + self.relay.roster(i), stdin=subprocess.PIPE, stdout=subprocess.PIPE, stderr=subprocess.PIPE)
                      for i in range(boards, boards + nodes)]

    def start(self, i):
        b = subprocess.Popen([*self.srm, 'board', *self.member(i), '--start', str(i), '--http', '127.0.0.1:%d' % self.http[i]] + self.options,
                             stdin=subprocess.DEVNULL, stdout=subprocess.PIPE, stderr=subprocess.PIPE)
        line = b.stderr.readline().decode()
        found = re.fullmatch(r'srm: draw at (http://127\.0\.0\.1:%d(/[0-9a-f]{32}/|/))\n' % self.http[i], line)
        assert found, line
        self.roots[i] = found.group(2)
        return b

    def member(self, i):
        """The words of a command line that say which member of the session it is."""
        return ['--session', '7', '--me', str(i), *self.relay.roster(i)]

    def url(self, i):
        return 'http://127.0.0.1:%d%s' % (self.fronts[i].port if FRONT else self.http[i], self.roots[i])

    def post(self, i, bodies, page='0.0'):
        """Draws these bodies as member i, all of them, whatever they say."""
        at = 0
        while at < len(bodies):
            lines, size = [], 0
            for body in bodies[at:at + 900]:
                size += len(body.encode()) + 8
                if size > 60000:
                    break
                lines.append('%s %s' % (page, body))
            origin = 'http://127.0.0.1:%d' % self.http[i]
            status, said = self.ask(i, 'POST', 'draw', {'x-srm': '1', 'Origin': origin}, '\n'.join(lines).encode())
            at += int(said or 0) + (status != 200)
            if status == 200 and said == b'0':
                time.sleep(0.01)

    def ask(self, i, method, path, headers, body=None):
        """The status and the body of an answer, of a path behind the page's own."""
        c = http.client.HTTPConnection('127.0.0.1', self.http[i], timeout=patience(30))
        c.request(method, self.roots[i] + path, body, headers)
        r = c.getresponse()
        return r.status, r.read()

    def told(self, i):
        """All that member i tells a tab that has nothing, which is 100 messages at a time."""
        taken = []
        while True:
            told = json.loads(self.ask(i, 'GET', 'told?from=%d' % len(taken), {'x-srm': '1'})[1])
            taken += told['taken']
            if len(told['taken']) < 100:
                return {**told, 'taken': taken}

    def close(self):
        for it in self.fronts:
            it.close()
        for p in self.boards + self.nodes:
            if p.poll() is None:
                with contextlib.suppress(OSError):
                    p.send_signal(signal.SIGCONT)
                p.kill()
            p.wait()
        self.relay.over = True


class RoomSession(Session):
    """The same in a room, whose members have these names."""

    NAMES = ('ada', 'grace', 'mary')

    def member(self, i):
        """Makes the room's file as member i has it, whose addresses are those of the relay."""
        members = ''.join('[[member]]\nname = "%s"\naddress = "%s"\n' % it for it in zip(self.NAMES, self.relay.roster(i)))
        settings = '[settings]\nwaits = [2, 2, 1, 1]\nleast-distance = 5000\nrate = 64000\ndepth = 4204\nlinger = 2000000\nmost-missing = 16777216\n'
        self.folder = getattr(self, 'folder', None) or tempfile.mkdtemp()
        path = os.path.join(self.folder, '%d.room' % i)
        with open(os.open(path, os.O_WRONLY | os.O_CREAT | os.O_TRUNC, 0o600), 'w') as it:
            it.write('ringyew = 1\nsession = 7\nkey = "%s"\n%s%s' % ('00' * 32, members, settings))
        return ['--room', path, '--me', self.NAMES[i]]

    def close(self):
        super().close()
        shutil.rmtree(self.folder)


def begun(options):
    """A browser. On a busy machine one may need more time than its driver gives it: then another one is begun."""
    for left in reversed(range(PATIENCE)):
        try:
            d = webdriver.Chrome(options=options, service=Service(DRIVER))
            break
        except (SessionNotCreatedException, TimeoutException):
            if not left:
                raise
    BEGUN.append(d)
    d.set_script_timeout(patience(30))
    d.set_page_load_timeout(patience(60))
    return d


def browser(url, *more):
    """A window on this page, of a size (wide, high) and with options of Chromium, in any order."""
    size = next((one for one in more if isinstance(one, tuple)), (1280, 860))
    more = tuple(one for one in more if isinstance(one, str))
    o = webdriver.ChromeOptions()
    o.binary_location = CHROMIUM
    for a in ('--headless=new', '--no-sandbox', '--disable-gpu', '--hide-scrollbars', '--disable-background-networking', '--no-first-run', '--force-device-scale-factor=1', '--window-size=%d,%d' % size) + more:
        o.add_argument(a)
    o.set_capability('goog:loggingPrefs', {'browser': 'ALL'})
    d = begun(o)
    d.get(url)
    try:
        until(lambda: d.execute_script('return !!(window.board && board.last())'), 'the page is up', 60)
    except AssertionError as why:
        said = [line['message'] for line in d.get_log('browser')]
        d.quit()
        raise AssertionError('%s; %s' % (why, said)) from None
    return d


def patience(seconds):
    """How long a test waits for what takes less than so many seconds on an idle machine."""
    return seconds if TIMES else PATIENCE * seconds


def until(ask, what, seconds=20):
    seconds = patience(seconds)
    end = time.time() + seconds
    while time.time() < end:
        got = ask()
        if got:
            return got
        time.sleep(0.1)
    raise AssertionError('not in %d s: %s' % (seconds, what))


def judge(what, took, most):
    """That something took no longer than it may."""
    assert not TIMES or took <= most, (what, took, most)


def settled(d):
    """Waits until the window is laid out and painted anew."""
    d.execute_async_script('const done = arguments[0]; requestAnimationFrame(() => requestAnimationFrame(() => setTimeout(done)))')


def be_phone(d, wide, high):
    """Makes the window a phone's, so large."""
    d.execute_cdp_cmd('Emulation.setDeviceMetricsOverride', {'width': wide, 'height': high, 'deviceScaleFactor': 2, 'mobile': True})
    until(lambda: d.execute_script('return innerWidth') == wide, 'the window is so wide')
    settled(d)


def reloaded(d):
    """Waits until the page is up again behind a reload that a script began, and has all that was drawn."""
    until(lambda: d.execute_script('return !window.isOld && !!(window.board && board.last() && board.isLoaded())'), 'the page is up again', 60)


def reload(d):
    d.execute_script('window.isOld = true')
    d.refresh()
    reloaded(d)


def along(d, chain, points):
    """Moves the pointer along points, each from 0 to 1 of the paper."""
    paper = d.find_element(By.ID, 'paper')
    w, h = paper.size['width'], paper.size['height']
    for x, y in points:
        chain.move_to_element_with_offset(paper, int(x * w - w / 2), int(y * h - h / 2))
    return chain


def begin(d, points, duration=12):
    """The same with the button down from the first point on."""
    chain = along(d, ActionChains(d, duration=duration), points[:1]).click_and_hold()
    return along(d, chain, points[1:])


def draw(d, points, duration=12):
    begin(d, points, duration).release().perform()


def press(d, selector, at=0):
    """Clicks one of the elements that a panel makes anew now and then."""
    for left in reversed(range(PATIENCE)):
        try:
            d.find_elements(By.CSS_SELECTOR, selector)[at].click()
            return
        except StaleElementReferenceException:
            if not left:
                raise


def tool(d, name):
    d.find_element(By.ID, 'tool-' + name).click()


def menu(d, name):
    d.find_element(By.ID, 'menu-button').click()
    d.find_element(By.ID, name).click()


def write(d, place, text):
    tool(d, 'text')
    draw(d, [place])
    until(lambda: d.switch_to.active_element.get_attribute('id') == 'words', 'the text is begun')
    ActionChains(d).send_keys(text).send_keys(Keys.ENTER).perform()


def touch(d, points, kind):
    """The same with a finger ('touch') or a pen ('pen')."""
    r = d.find_element(By.ID, 'paper').rect
    builder = ActionBuilder(d, mouse=PointerInput(kind, 'the ' + kind), duration=12)
    place = lambda p: (int(r['x'] + p[0] * r['width']), int(r['y'] + p[1] * r['height']))
    hand = builder.pointer_action
    hand.move_to_location(*place(points[0]))
    hand.pointer_down()
    for p in points[1:]:
        hand.move_to_location(*place(p))
    hand.pointer_up()
    builder.perform()


def wave(x, y, n=60, w=0.3, h=0.06):
    return [(x + w * i / n, y + h * math.sin(i / 4)) for i in range(n + 1)]


def shapes(d, page=None):
    return d.execute_script('return board.shapes(arguments[0])', page)


def last_number(d):
    """The number of the last drawop of the browser's own member on the page that it shows."""
    return d.execute_script('return page().source(me).taken')


def same(all_, count=None, page=None, seconds=30):
    """Waits until all browsers show the same shapes, so many, and nothing is on its way; then compares pixels."""
    def agree():
        first = shapes(all_[0], page)
        return (count is None or len(first) == count) and all(shapes(d, page) == first for d in all_[1:]) and all(d.execute_script('return board.pending()') == 0 for d in all_)
    try:
        until(agree, 'all boards show the same %s shapes' % ('' if count is None else count), seconds)
    except AssertionError as e:
        raise AssertionError('%s; they have %s, on the way %s' % (e, [len(shapes(d, page)) for d in all_], [d.execute_script('return board.pending()') for d in all_])) from None
    images = [d.execute_script('return board.image(arguments[0])', page) for d in all_]
    assert all(i == images[0] for i in images[1:]), 'the pixels differ'


# A window whose pointer is a mouse, which a headless browser hasn't.
DESK = '--blink-settings=primaryHoverType=2,availableHoverTypes=2,primaryPointerType=4,availablePointerTypes=4'


def key(d, *keys):
    ActionChains(d).send_keys(*keys).perform()


def chord(d, letter, shift=False):
    """Control with a key, and with Shift."""
    chain = ActionChains(d).key_down(Keys.CONTROL)
    if shift:
        chain.key_down(Keys.SHIFT)
    chain.send_keys(letter)
    if shift:
        chain.key_up(Keys.SHIFT)
    chain.key_up(Keys.CONTROL).perform()


def kinds(d, page=None):
    return [line.split()[2] for line in shapes(d, page)]


def board_idle(d):
    """Whether nothing that was drawn there is on its way."""
    return d.execute_script('return board.pending() === 0')


def state(d):
    """How it stands, as the window says it."""
    return d.find_element(By.ID, 'state').get_attribute('title')


def collect_states(d):
    """Has the window keep all that it says of how it stands, also what stands there for a moment."""
    d.execute_script("window.states = []; new MutationObserver(() => states.push($('state-text').textContent)).observe($('state-text'), { childList: true })")


def states(d):
    return d.execute_script('return states')


def name_page(d, name):
    """Names the page that is shown."""
    d.find_element(By.ID, 'paper')
    key(d, Keys.F2)
    until(lambda: d.switch_to.active_element.tag_name == 'input', 'the name is asked for')
    d.execute_script('document.activeElement.value = arguments[0]', name)
    key(d, Keys.ENTER)


def painted_right(d):
    """Whether the window shows what the whole page, painted at once, would show: at most 1 pixel of 1,000 differs by more than 60 of 255."""
    until(lambda: d.execute_script('return board.isIdle()'), 'all is painted')
    far = d.execute_script("""
        const shown = base.getContext('2d'), other = document.createElement('canvas'); other.width = base.width; other.height = base.height;
        const c = other.getContext('2d'); c.setTransform(scale * ratio, 0, 0, scale * ratio, corner[0] * ratio, corner[1] * ratio); c.beginPath(); c.rect(0, 0, WIDE, HIGH); c.clip(); page().shapes().forEach(s => paint(c, s));
        const a = shown.getImageData(0, 0, base.width, base.height).data, b = c.getImageData(0, 0, base.width, base.height).data;
        let many = 0; for (let i = 0; i < a.length; i += 4) if (Math.max(Math.abs(a[i] * a[i + 3] - b[i] * b[i + 3]), Math.abs(a[i + 1] * a[i + 3] - b[i + 1] * b[i + 3]), Math.abs(a[i + 3] - b[i + 3]) * 255) / 255 > 60) many++;
        return many * 1000 / (a.length / 4);""")
    return far <= 1


def quit_all(browsers, *sessions):
    for d in browsers:
        d.quit()
    for s in sessions:
        s.close()


def program():
    """The words that run the program as the sources stand."""
    built = CRATE / 'out/srm_main'
    if os.access(built, os.X_OK) and not archive.newer_than(built, CRATE.name):
        return [str(built)]
    try:
        return checked.program(CRATE, who='tools/board/test')
    except checked.Unready as why:
        sys.exit('%stools/board/test: %s' % (why.said, why))
