"""Chromium without a screen, controlled over WebDriver with Python's standard library."""
import json
import socket
import subprocess
import time
import urllib.request

WORDS = ["--headless=new", "--no-sandbox", "--disable-gpu", "--disable-dev-shm-usage", "--window-size=1280,940"]


def told(method, url, body=None):
    data = None if body is None else json.dumps(body).encode()
    request = urllib.request.Request(url, method=method, data=data, headers={"Content-Type": "application/json"})
    with urllib.request.urlopen(request, timeout=60) as answer:
        return json.load(answer)["value"]


def free_port():
    with socket.socket() as s:
        s.bind(("127.0.0.1", 0))
        return s.getsockname()[1]


class Browser:
    def __init__(self, log):
        base = f"http://127.0.0.1:{(port := free_port())}"
        with open(log, "w") as log:
            self.driver = subprocess.Popen(["chromedriver", f"--port={port}"], stdout=log, stderr=log)
        wish = {"capabilities": {"alwaysMatch": {"goog:chromeOptions": {"args": WORDS}}}}
        try:
            self.wait_for(f"{base}/status")
            self.session = f"{base}/session/" + told("POST", f"{base}/session", wish)["sessionId"]
        except BaseException:
            self.driver.terminate()
            raise

    @staticmethod
    def wait_for(url):
        for _ in range(200):
            try:
                return told("GET", url)
            except OSError:
                time.sleep(0.1)
        raise SystemExit("chromedriver does not answer")

    def open(self, page):
        told("POST", f"{self.session}/url", {"url": page})

    def run(self, script):
        return told("POST", f"{self.session}/execute/sync", {"script": script, "args": []})

    def click(self, name):
        self.run(f"document.getElementById('{name}').click();")

    def size(self, width, height):
        told("POST", f"{self.session}/window/rect", {"width": width, "height": height})

    def second(self):
        """Opens a second window, and returns the names of both."""
        first = told("GET", f"{self.session}/window")
        return first, told("POST", f"{self.session}/window/new", {"type": "window"})["handle"]

    def turn_to(self, window):
        told("POST", f"{self.session}/window", {"handle": window})

    def close(self):
        """Closes the current window."""
        told("DELETE", f"{self.session}/window")

    def end(self):
        try:
            told("DELETE", self.session)
        finally:
            self.driver.terminate()
            self.driver.wait()
