"""A server before a board's own: it serves the page as web/ has it, and hands every other request on. So a test of the page needs no program compiled anew."""
import http.client
import http.server
import select
import socket
import threading

from page import page, policy


class Front:
    """Before the board at a port; `port` is its own."""

    def __init__(self, behind):
        text, allowed = page().encode(), policy(page())

        class Handler(http.server.BaseHTTPRequestHandler):
            protocol_version = 'HTTP/1.1'

            def do_GET(self):
                if self.headers.get('upgrade'):
                    self.tunnel()
                else:
                    self.hand_on(None)

            def tunnel(self):
                """Hands a WebSocket on, as it comes."""
                self.close_connection = True
                head = '%s\r\n' % self.requestline + ''.join('%s: %s\r\n' % (name, value.replace(':%d' % self.server.server_port, ':%d' % behind)) for name, value in self.headers.items())
                try:
                    with socket.create_connection(('127.0.0.1', behind), timeout=10) as there:
                        there.sendall(head.encode() + b'\r\n')
                        ends = {there: self.connection, self.connection: there}
                        while True:
                            for end in select.select(list(ends), [], [], 60)[0]:
                                data = end.recv(1 << 16)
                                if not data:
                                    return
                                ends[end].sendall(data)
                except OSError:
                    pass

            def do_POST(self):
                self.hand_on(self.rfile.read(int(self.headers.get('content-length', 0))))

            def hand_on(self, body):
                headers = {name: value.replace(':%d' % self.server.server_port, ':%d' % behind) for name, value in self.headers.items() if name.lower() not in ('connection', 'content-length')}
                try:
                    c = self.server.links.pop() if self.server.links else http.client.HTTPConnection('127.0.0.1', behind, timeout=10)
                    c.request(self.command, self.path, body, headers)
                    r = c.getresponse()
                    said = r.read()
                    if not r.will_close:
                        self.server.links.append(c)
                except (OSError, http.client.HTTPException):
                    self.close_connection = True
                    return
                if self.command == 'GET' and r.status == 200 and r.getheader('content-type', '').startswith('text/html'):
                    said = text
                self.send_response(r.status)
                self.send_header('content-security-policy', allowed)
                for name in ('content-type', 'cache-control'):
                    if r.getheader(name):
                        self.send_header(name, r.getheader(name))
                self.send_header('content-length', str(len(said)))
                self.end_headers()
                self.wfile.write(said)

            def log_message(self, *_):
                pass

        class Server(http.server.ThreadingHTTPServer):
            daemon_threads = True
            links = []

            def handle_error(self, *_):
                pass

        self.server = Server(('127.0.0.1', 0), Handler)
        self.server.links = []
        self.port = self.server.server_port
        threading.Thread(target=self.server.serve_forever, daemon=True).start()

    def close(self):
        self.server.shutdown()
        self.server.server_close()
