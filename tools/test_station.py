#!/usr/bin/env python3
"""Tests of tools/station, without a browser: python3 -m unittest tools/test_station.py

station/test has those of the page.
"""
import importlib.machinery
import importlib.util
import os
import re
import threading
import unittest
import urllib.error
import urllib.request

ROOT = os.path.dirname(os.path.dirname(os.path.abspath(__file__)))


def load():
    loader = importlib.machinery.SourceFileLoader("station", os.path.join(ROOT, "tools", "station"))
    module = importlib.util.module_from_spec(importlib.util.spec_from_loader("station", loader))
    loader.exec_module(module)
    return module


class Serving(unittest.TestCase):
    @classmethod
    def setUpClass(cls):
        cls.station = load()
        cls.server = cls.station.server()
        threading.Thread(target=cls.server.serve_forever, daemon=True).start()

    @classmethod
    def tearDownClass(cls):
        cls.server.shutdown()
        cls.server.server_close()

    def get(self, path):
        """Status, kind and bytes of an answer."""
        try:
            with urllib.request.urlopen(f"http://127.0.0.1:{self.server.server_address[1]}{path}") as answer:
                return answer.status, answer.headers["Content-Type"], answer.read()
        except urllib.error.HTTPError as e:
            with e:
                return e.code, None, b""

    def test_on_this_machine_alone(self):
        self.assertEqual(self.server.server_address[0], "127.0.0.1")

    def test_files_with_their_kinds(self):
        for name in self.station.files():
            if os.path.exists(os.path.join(ROOT, name)):
                with open(os.path.join(ROOT, name), "rb") as file:
                    self.assertEqual(self.get("/" + name), (200, self.station.KINDS[os.path.splitext(name)[1]], file.read()))

    def test_page(self):
        page = self.get("/station/")
        self.assertEqual(page, self.get("/"))
        self.assertEqual(page[1], "text/html; charset=utf-8")
        for name in re.findall(r'(?:src|href)="([^"]+)"', page[2].decode()):
            self.assertEqual(self.get("/station/" + name)[0], 200, name)

    def test_modules_that_are_asked_for(self):
        for name in self.station.files():
            if name.endswith(".mjs") and name.startswith("station"):
                with open(os.path.join(ROOT, name), encoding="utf-8") as file:
                    for other in re.findall(r"from '([^']+)'", file.read()):
                        path = os.path.normpath(os.path.join("station", other))
                        self.assertIn(path, self.station.files(), f"{name} asks for {other}")

    def test_nothing_else(self):
        for path in ("/README.md", "/tools/station", "/station/test", "/station/../README.md", "/station/%2e%2e/README.md", "/station/tests/page.py",
                     "/crates.txt", "/examples/", "/clients/client.c"):
            self.assertEqual(self.get(path)[0], 404, path)


if __name__ == "__main__":
    unittest.main()
