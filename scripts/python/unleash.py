"""A server that imitates Unleash: unleash.py PORT

It knows one client token and one frontend token. It answers token validation, the whole feed and the delta feed with the keys and
headers that Unleash's own server writes, as far as Unleash's documentation shows them. It accepts bulk metrics, and GET /reports returns
how many of their entries it got. A POST to /next makes the next state. It is not Unleash: it only tests how an edge handles that format.
"""
import json
import sys
from http.server import BaseHTTPRequestHandler, ThreadingHTTPServer

CLIENT, FRONT = "*:development.client", "*:development.front"
STATE = {"revision": 7, "reports": 0}


def feature(name, enabled):
    return {
        "name": name, "type": "release", "enabled": enabled, "project": "default", "stale": False, "impressionData": False,
        "description": None, "dependencies": [],
        "strategies": [{
            "name": "flexibleRollout", "title": None, "disabled": False, "sortOrder": 0,
            "parameters": {"groupId": name, "rollout": "100", "stickiness": "default"}, "segments": [1],
            "constraints": [{"contextName": "appName", "operator": "NOT_IN", "values": ["shut"], "inverted": False,
                             "caseInsensitive": False}],
            "variants": [{"name": "blue", "weight": 1000, "weightType": "variable", "stickiness": "default",
                          "payload": {"type": "string", "value": "b"}}],
        }],
        "variants": [],
    }


def segments():
    return [{"id": 1, "name": "everyone", "constraints": []}]


def feed():
    revision = STATE["revision"]
    return {
        "version": 2, "features": [feature("shown", True), feature("changed", revision > 7)],
        "query": {"inlineSegmentConstraints": False, "environment": "development"},
        "meta": {"revisionId": revision, "etag": f'"76d8bb0e:{revision}"', "queryHash": "76d8bb0e"}, "segments": segments(),
    }


def delta(known):
    revision = STATE["revision"]
    if known and known < revision:
        return {"events": [{"eventId": revision, "type": "feature-updated", "feature": feature("changed", True)}]}
    return {"events": [{"eventId": revision, "type": "hydration", "features": feed()["features"], "segments": segments()}]}


class Handler(BaseHTTPRequestHandler):
    protocol_version = "HTTP/1.1"

    def log_message(self, *_):
        pass

    def reply(self, status, body=None, tag=None):
        text = b"" if body is None else json.dumps(body, separators=(",", ":")).encode()
        self.send_response(status)
        self.send_header("Access-Control-Allow-Origin", "*")
        self.send_header("Vary", "Accept-Encoding")
        self.send_header("Cache-Control", "no-cache")
        if tag:
            self.send_header("ETag", tag)
        if text:
            self.send_header("Content-Type", "application/json; charset=utf-8")
        if status != 304:
            self.send_header("Content-Length", str(len(text)))
        self.end_headers()
        self.wfile.write(text)

    def do_POST(self):
        body = json.loads(self.rfile.read(int(self.headers["Content-Length"] or 0)) or b"null")
        if self.path == "/next":
            STATE["revision"] += 1
            self.reply(200, {})
        elif self.path == "/edge/validate":
            known = {CLIENT: "client", FRONT: "frontend"}
            self.reply(200, {"tokens": [{"token": token, "type": known[token], "projects": ["*"]}
                                        for token in body["tokens"] if token in known]})
        elif self.path == "/api/client/metrics/bulk" and self.headers["Authorization"] == CLIENT:
            STATE["reports"] += len(body["metrics"])
            self.reply(202)
        else:
            self.reply(404, {"name": "NotFoundError", "message": "not found"})

    def do_GET(self):
        tag = self.headers["If-None-Match"]
        if self.path == "/internal-backstage/health":
            self.reply(200, {"status": "OK"})
        elif self.path == "/reports":
            self.reply(200, STATE["reports"])
        elif self.headers["Authorization"] != CLIENT:
            self.reply(401, {"name": "AuthenticationRequired", "message": "You must log in to use Unleash."})
        elif self.path == "/api/client/features":
            now = feed()["meta"]["etag"]
            self.reply(304, tag=now) if tag == now else self.reply(200, feed(), now)
        elif self.path == "/api/client/delta":
            now = f'"{STATE["revision"]}"'
            self.reply(304, tag=now) if tag == now else self.reply(200, delta(int(tag.strip('"')) if tag else None), now)
        else:
            self.reply(404, {"name": "NotFoundError", "message": "not found"})


ThreadingHTTPServer(("127.0.0.1", int(sys.argv[1])), Handler).serve_forever()
