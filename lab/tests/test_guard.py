"""Who is served, and what every answer says to the browser."""
from __future__ import annotations

import re
import socket
import subprocess
import time
import unittest

from lab.server.connection import MOST_HEAD, Patience
from lab.server.serving import MOST_CONNECTIONS
from lab.tests.client import Lab, received

HEADERS = {
    "Content-Security-Policy": "default-src 'none'; script-src 'self'; style-src 'self'; connect-src 'self'; "
                               "frame-ancestors 'none'; base-uri 'none'; form-action 'none'",
    "Referrer-Policy": "no-referrer",
    "X-Content-Type-Options": "nosniff",
    "Cache-Control": "no-store",
    "Cross-Origin-Resource-Policy": "same-origin",
}
GETS = ("", "lab.css", "dom.js", "examples", "programs")
TEXT = b"version = 1\n"


class Guarded(unittest.TestCase):
    """One lab for all; the clients here behave."""

    @classmethod
    def setUpClass(cls) -> None:
        cls.lab = Lab()

    @classmethod
    def tearDownClass(cls) -> None:
        cls.lab.stop()

    def status(self, *words, **more) -> int:
        return self.lab.ask(*words, **more).status

    def test_address(self) -> None:
        """127.0.0.1 alone, and a token of 32 letters that no other lab has."""
        self.assertRegex(self.lab.server.address, r"^http://127\.0\.0\.1:\d+/[A-Za-z0-9_-]{32}/$")
        listening = subprocess.run(["cat", "/proc/net/tcp", "/proc/net/tcp6"], capture_output=True, text=True, check=False).stdout
        port = f"{self.lab.server.port:04X}"
        found = re.findall(rf"^ *\d+: ([0-9A-F]+):{port} [0-9A-F]+:0000 0A", listening, re.M)
        self.assertEqual(found, ["0100007F"])
        other = Lab()
        try:
            self.assertNotEqual(other.server.token, self.lab.server.token)
        finally:
            other.stop()

    def test_token(self) -> None:
        wrong = f"/{'x' * 32}/"
        for path in ("/", "/lab.css", wrong, f"{wrong}lab.css", f"/{self.lab.server.token}", f"//{self.lab.server.token}/"):
            self.assertEqual(self.status("GET", path, token=False), 404, path)
        for path in (f"{wrong}run?want=summary", "/run?want=summary", f"{wrong}save"):
            self.assertEqual(self.status("POST", path, TEXT, token=False), 404, path)

    def test_host(self) -> None:
        """Against rebinding: another name for our address isn't ours."""
        port = self.lab.server.port
        for host in ("evil.example", f"evil.example:{port}", "127.0.0.1", f"127.0.0.1:{port + 1}", f"127.0.0.2:{port}", "", None):
            for path in GETS:
                self.assertEqual(self.status("GET", path, headers={"Host": host}), 403, host)
        self.assertEqual(self.status("GET", "", headers={"Host": f"localhost:{port}"}), 200)

    def test_origin(self) -> None:
        """Our own origin is that of this request's host; a POST has one."""
        port = self.lab.server.port
        for origin in ("http://evil.example", "null", f"https://127.0.0.1:{port}", f"http://localhost:{port}", "", None):
            for path in ("run?want=summary", "file?report=trace", "save"):
                self.assertEqual(self.status("POST", path, TEXT, headers={"Origin": origin}), 403, origin)
        self.assertEqual(self.status("GET", "", headers={"Origin": "http://evil.example"}), 403)
        local = {"Host": f"localhost:{port}", "Origin": f"http://localhost:{port}"}
        self.assertEqual(self.status("POST", "run?want=summary", TEXT, headers=local), 200)

    def test_fetch_site(self) -> None:
        for site, status in (("cross-site", 403), ("same-site", 403), ("same-origin", 200), ("none", 200)):
            self.assertEqual(self.status("GET", "", headers={"Sec-Fetch-Site": site}), status, site)
            self.assertEqual(self.status("POST", "run?want=summary", TEXT, headers={"Sec-Fetch-Site": site}), status, site)

    def test_methods(self) -> None:
        """Every method but GET and POST gets 405, with a token or without, and there is no header of CORS."""
        for method in ("OPTIONS", "HEAD", "PUT", "DELETE", "PATCH", "TRACE", "CONNECT", "get", "X"):
            for path in (*GETS, "run", "file", "save"):
                got = self.lab.ask(method, path)
                self.assertEqual((got.status, got.body), (405, b""), method)
                self.assertFalse([name for name in got.headers if name.lower().startswith("access-control")])
        self.assertEqual(self.status("OPTIONS", "/", token=False), 405)
        for path in GETS:
            self.assertEqual(self.status("POST", path, TEXT), 405, path)
        for path in ("run?want=summary", "file?report=trace", "save"):
            self.assertEqual(self.status("GET", path), 405, path)

    def test_no_paths(self) -> None:
        """A path is a key of a table."""
        for path in ("../server/main.py", "..%2fserver%2fmain.py", "index.html", "./lab.css", "/lab.css", "lab.css/", "LAB.CSS",
                     "../../README.md", "/etc/passwd", "lab.css%00", "server/main.py", "tests/client.py"):
            self.assertEqual(self.status("GET", path), 404, path)
        for path in ("runs", "run/", "../run", "save/x"):
            self.assertEqual(self.status("POST", path, TEXT), 404, path)

    def test_refusals_say_nothing(self) -> None:
        for got in (self.lab.ask("GET", "/", token=False), self.lab.ask("GET", "", headers={"Host": "evil.example"}),
                    self.lab.ask("PUT", "")):
            self.assertEqual(got.body, b"")
            self.assertNotIn(self.lab.server.token, str(got.headers))

    def test_headers_on_each_path(self) -> None:
        """The browser gets the same rules with every answer; no answer has the token in it or is shared."""
        answers = [self.lab.ask("GET", path) for path in (*GETS, "nothing")]
        answers += [self.lab.ask("POST", path, TEXT) for path in
                    ("run?want=summary,shares", "run?want=x", "file?report=trace", "file?report=story", "save")]
        answers += [self.lab.ask("OPTIONS", ""), self.lab.ask("GET", "/", token=False),
                    self.lab.ask("GET", "", headers={"Host": "x"}), self.lab.ask("POST", "save", headers={"Content-Length": None})]
        for got in answers:
            for name, value in HEADERS.items():
                self.assertEqual(got.headers.get(name), value, got.headers)
            self.assertFalse([name for name in got.headers if name.lower().startswith("access-control")])
            self.assertNotIn(self.lab.server.token, str(got.headers) + got.body.decode())

    def test_page_and_headers(self) -> None:
        """No inline script, no style or handler in an attribute; nothing from anywhere else."""
        page = self.lab.ask("GET", "")
        text = page.body.decode()
        self.assertTrue(page.headers["Content-Type"].startswith("text/html"))
        self.assertEqual(re.findall(r"<script(?! src=\"[a-z]+\.js\"></script>)", text), [])
        self.assertEqual(re.findall(r"\s(?:style|on\w+)=", text), [])
        self.assertEqual(re.findall(r"(?:https?:)?//\w", text), [])
        for name in re.findall(r'(?:src|href)="([^"]+)"', text):
            got = self.lab.ask("GET", name)
            self.assertEqual(got.status, 200, name)
            code = got.body.decode()
            for word in ("innerHTML", "outerHTML", "insertAdjacentHTML", "document.write", "eval(", "new Function", "</script"):
                self.assertNotIn(word, code, name)

    def test_heads(self) -> None:
        """Heads are read strictly."""
        good = self.lab.head("GET", "")
        bad = {
            b"GET /\r\n\r\n": 400, b"GET / HTTP/2.0\r\n\r\n": 400, b"GET x HTTP/1.1\r\n\r\n": 400,
            good.replace(b"Host", b"X: y\r\nHost: z\r\nHost"): 400, good.replace(b"\r\n\r\n", b"\r\n folded\r\n\r\n"): 400,
            good.replace(b"\r\n\r\n", b"\r\nX : y\r\n\r\n"): 400, good.replace(b"\r\n\r\n", b"\r\nX: \xff\r\n\r\n"): 400,
            good.replace(b"\r\n\r\n", b"\r\nX: " + b"y" * MOST_HEAD + b"\r\n\r\n"): 431, b"x" * (MOST_HEAD + 100): 431,
        }
        for sent, status in bad.items():
            with self.lab.connect() as stream:
                stream.sendall(sent)
                self.assertEqual(received(stream).status, status, sent[:60])


class Bodies(unittest.TestCase):
    """Lengths of bodies, and clients that are slow, silent or many."""

    def setUp(self) -> None:
        self.lab = Lab(patience=Patience(silent=0.6, request=1.5))

    def tearDown(self) -> None:
        self.lab.stop()

    def test_bodies(self) -> None:
        path = "run?want=summary"
        for headers, status in (({"Content-Length": None}, 411), ({"Content-Length": "x"}, 411), ({"Content-Length": "-1"}, 411),
                                ({"Content-Length": "1048577"}, 413), ({"Content-Length": "9" * 30}, 413),
                                ({"Transfer-Encoding": "chunked"}, 411), ({"Content-Length": "1"}, 400)):
            self.assertEqual(self.lab.ask("POST", path, b"xy", headers=headers).status, status, headers)
        self.assertEqual(self.lab.ask("POST", path, b" " * 1_048_576).status, 200)

    def ends_within(self, stream: socket.socket, seconds: float) -> None:
        begun = time.monotonic()
        stream.settimeout(seconds + 2)
        try:
            while stream.recv(65_536):
                pass
        except ConnectionResetError:
            pass
        self.assertLess(time.monotonic() - begun, seconds)

    def test_silent_client(self) -> None:
        """Who says nothing, or stops in the middle of head or body, is dropped."""
        for sent in (b"", b"GET / HT", self.lab.head("POST", "save", {"Content-Length": "10"}) + b"abc"):
            with self.lab.connect() as stream:
                stream.sendall(sent)
                self.ends_within(stream, 10)

    def test_slow_client(self) -> None:
        """A byte now and then is never silent, and yet has no more time than others for the whole request."""
        for sent in (b"GET /" + b"x" * 1000, self.lab.head("POST", "save", {"Content-Length": "1000"}) + b"x" * 1000):
            begun = time.monotonic()
            with self.lab.connect() as stream, self.assertRaises((BrokenPipeError, ConnectionResetError)):
                stream.sendall(sent[:-1000])
                for at in range(len(sent) - 1000, len(sent)):
                    stream.sendall(sent[at:at + 1])
                    time.sleep(0.1)
            self.assertLess(time.monotonic() - begun, 15)

    def test_client_that_never_reads(self) -> None:
        """Its seat is free again once it has taken nothing for a while."""
        stream = socket.socket()
        stream.setsockopt(socket.SOL_SOCKET, socket.SO_RCVBUF, 4096)
        with stream:
            stream.connect(("127.0.0.1", self.lab.server.port))
            text = b"# " + b"x" * 1_000_000
            stream.sendall(self.lab.head("POST", "save", {"Content-Length": str(len(text))}) + text)
            self.assertTrue(self.until_free(20))
            stream.settimeout(2)
            taken = 0
            try:
                while read := stream.recv(65_536):
                    taken += len(read)
            except OSError:
                pass
            self.assertGreater(taken, 0)
            self.assertLess(taken, len(text))

    def until_free(self, seconds: float) -> bool:
        """Whether all seats are free within some time, after one was taken."""
        until = time.monotonic() + seconds
        while time.monotonic() < until and self.lab.server._seats._value == MOST_CONNECTIONS:
            time.sleep(0.01)
        while time.monotonic() < until:
            if self.lab.server._seats._value == MOST_CONNECTIONS:
                return True
            time.sleep(0.05)
        return False

    def test_many_connections_leave_a_seat(self) -> None:
        """More connections than seats are turned away; silent ones give their seats back."""
        held = [self.lab.connect() for _ in range(MOST_CONNECTIONS)]
        time.sleep(0.2)
        try:
            with self.lab.connect() as stream:
                self.assertEqual(received(stream).status, 503)
            self.assertTrue(self.until_free(20))
            self.assertEqual(self.lab.ask("GET", "").status, 200)
        finally:
            for stream in held:
                stream.close()


if __name__ == "__main__":
    unittest.main()
