"""Who is served: only pages that this server itself gave out, by an address that has the token in it."""
from __future__ import annotations

import hmac

from .connection import Refused, Request

POLICY = ("default-src 'none'; script-src 'self'; style-src 'self'; connect-src 'self'; "
          "frame-ancestors 'none'; base-uri 'none'; form-action 'none'")

HEADERS = {
    "Content-Security-Policy": POLICY,
    "Referrer-Policy": "no-referrer",
    "X-Content-Type-Options": "nosniff",
    "Cache-Control": "no-store",
    "Cross-Origin-Resource-Policy": "same-origin",
    "Cross-Origin-Opener-Policy": "same-origin",
    "X-Frame-Options": "DENY",
}


class Guard:
    """Knows the port and the token, and refuses every request that isn't ours."""

    def __init__(self, port: int, token: str) -> None:
        self._hosts = (f"127.0.0.1:{port}", f"localhost:{port}")
        self._begin = f"/{token}/"

    def path_of(self, request: Request) -> str:
        """The path behind the token. Raises the refusal of a request that isn't ours."""
        if request.method not in ("GET", "POST"):
            raise Refused(405)
        host = request.headers.get("host", "")
        if host not in self._hosts:
            raise Refused(403)
        begin = request.path[:len(self._begin)]
        if not hmac.compare_digest(begin.encode(), self._begin.encode()):
            raise Refused(404)
        if not self._is_ours(request, host):
            raise Refused(403)
        return request.path[len(self._begin):]

    @staticmethod
    def _is_ours(request: Request, host: str) -> bool:
        origin = request.headers.get("origin")
        if origin is None:
            allowed = request.method == "GET"
        else:
            allowed = origin == f"http://{host}"
        return allowed and request.headers.get("sec-fetch-site", "none") in ("none", "same-origin")
