#!/usr/bin/env python3
"""Hook server for tusd v2 (HTTP hooks).

Usage:
    tusd_hooks.py [--port PORT] [--log FILE] [--token TOKEN] [--keep]
    tusd -hooks-http http://127.0.0.1:PORT/ -hooks-enabled-events LIST
LIST must name pre-create, pre-finish, pre-terminate and the post-* hooks wanted.

pre-create     refuses uploads without a valid token (403, with --token only),
               without a filename or with a .exe filename (422)
pre-terminate  refuses to delete uploads (403, with --keep only)
pre-finish     lets everything pass
post-*         appends one JSON line per event to FILE (if --log is given)
"""
import argparse
import json
import sys
import threading
from http.server import BaseHTTPRequestHandler, ThreadingHTTPServer

log_lock = threading.Lock()


def reject(flag, status, text):
    # tusd wants a 200 from us; the client's answer goes into HTTPResponse.
    return {flag: True, "HTTPResponse": {
        "StatusCode": status, "Body": text + "\n",
        "Header": {"Content-Type": "text/plain; charset=utf-8"}}}


def handle(hook, args):
    kind = hook.get("Type") or ""
    event = hook.get("Event") or {}
    upload = event.get("Upload") or {}
    if kind == "pre-create":
        header = (event.get("HTTPRequest") or {}).get("Header") or {}
        auth = (header.get("Authorization") or [""])[0]  # Go: lists of values
        if args.token is not None and auth != "Bearer " + args.token:
            return reject("RejectUpload", 403, "missing or wrong token")
        filename = (upload.get("MetaData") or {}).get("filename")
        if not filename:
            return reject("RejectUpload", 422, "no filename in the metadata")
        if filename.lower().endswith(".exe"):
            return reject("RejectUpload", 422, ".exe files are not accepted")
    elif kind == "pre-terminate" and args.keep:
        return reject("RejectTermination", 403, "uploads are kept")
    elif kind.startswith("post-") and args.log:
        line = json.dumps({
            "type": kind, "id": upload.get("ID"),
            "offset": upload.get("Offset"), "size": upload.get("Size"),
            "metadata": upload.get("MetaData"),
            "partial": bool(upload.get("IsPartial")),
            "final": bool(upload.get("IsFinal"))})
        with log_lock, open(args.log, "a", encoding="utf-8") as f:
            f.write(line + "\n")
    return {}


class Handler(BaseHTTPRequestHandler):
    def do_POST(self):
        body = self.rfile.read(int(self.headers.get("Content-Length") or 0))
        try:
            status, answer = 200, handle(json.loads(body), self.server.args)
        except (ValueError, AttributeError) as e:
            status, answer = 400, {"error": "bad hook request: %s" % e}
        data = json.dumps(answer).encode()
        self.send_response(status)
        self.send_header("Content-Type", "application/json")
        self.send_header("Content-Length", str(len(data)))
        self.end_headers()
        self.wfile.write(data)

    def log_message(self, *args):
        pass


if __name__ == "__main__":
    parser = argparse.ArgumentParser(description="Hook server for tusd v2")
    parser.add_argument("--port", type=int, default=8000)
    parser.add_argument("--log", help="file for the post-* events")
    parser.add_argument("--token", help="require 'Authorization: Bearer TOKEN'")
    parser.add_argument("--keep", action="store_true", help="refuse deletion")
    args = parser.parse_args()
    server = ThreadingHTTPServer(("127.0.0.1", args.port), Handler)
    server.args = args
    print("listening on %d" % server.server_port, file=sys.stderr, flush=True)
    try:
        server.serve_forever()
    except KeyboardInterrupt:
        pass
