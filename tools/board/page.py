"""The board's page as one text: web/board.html with its style and its scripts in it.

Where board.html says `<style>/* NAME */</style>` that file stands. Its lines `<script src="NAME"></script>` become one script, in this order: what a module imports stands before it
already, so `import` and `export` are left out."""
import base64
import hashlib
import pathlib
import re

WEB = pathlib.Path(__file__).resolve().parents[2] / 'web'
SCRIPT = re.compile(r'<script src="([^"]+)"></script>\n')


def plain(module):
    """A module's text without imports and exports."""
    return re.sub(r'^export (?=(async |)function|class|const|let)', '', re.sub(r'^import .*\n', '', module, flags=re.M), flags=re.M)


def page():
    html = (WEB / 'board.html').read_text()
    html = re.sub(r'<style>/\* (\S+) \*/</style>', lambda found: '<style>\n%s</style>' % (WEB / found[1]).read_text(), html)
    names = SCRIPT.findall(html)
    script = '"use strict";\n' + '\n'.join(plain((WEB / name).read_text()) for name in names)
    assert '</script' not in script
    first, *_ = SCRIPT.split(html, 1)
    rest = SCRIPT.sub('', html)[len(first):]
    return '%s<script>\n%s</script>\n%s' % (first, script, rest)


def policy(html):
    """What a browser lets the page do: run the scripts and styles that it brings along and no others, and ask this server."""
    def hashes(element):
        texts = re.findall(r'<%s\b[^>]*>(.*?)</%s>' % (element, element), html, re.S)
        return ' '.join("'sha256-%s'" % base64.b64encode(hashlib.sha256(text.encode()).digest()).decode() for text in texts)
    return "default-src 'none'; script-src %s; style-src %s; img-src data: blob:; connect-src 'self'; base-uri 'none'; form-action 'none'; frame-ancestors 'none'" % (hashes('script'), hashes('style'))
