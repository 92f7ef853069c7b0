"""A headless browser that tests drive: Chromium over its debugging pipe."""

import base64
import fcntl
import json
import os
import shutil
import subprocess
import sys
import tempfile
import time
from typing import Any

NAMES = ("chromium", "chromium-browser", "google-chrome")
KEYS = {"ArrowRight": 39, "ArrowLeft": 37, "ArrowUp": 38, "ArrowDown": 40, "Home": 36, "End": 35, "Escape": 27, "Tab": 9}
SECONDS = 30

# The texts that are seen with a contrast below 4.5 to what is behind them, and how much that is.
FAINT = """(() => {
  const probe = document.createElement("canvas").getContext("2d", {willReadFrequently: true});
  const rgba = colour => {
    probe.clearRect(0, 0, 1, 1); probe.fillStyle = colour; probe.fillRect(0, 0, 1, 1);
    return [...probe.getImageData(0, 0, 1, 1).data];
  };
  const ground = document.createElement("div");
  ground.style.backgroundColor = "Canvas"; document.body.append(ground);
  const canvas = getComputedStyle(ground).backgroundColor; ground.remove();
  const behind = one => {
    for (; one; one = one.parentElement) { const its = getComputedStyle(one).backgroundColor; if (rgba(its)[3] === 255) return its; }
    return canvas;
  };
  const light = colour => rgba(colour).slice(0, 3).map(v => v / 255).map(v => v <= 0.04045 ? v / 12.92 : ((v + 0.055) / 1.055) ** 2.4)
    .reduce((sum, v, at) => sum + v * [0.2126, 0.7152, 0.0722][at], 0.05);
  const seen = [...document.querySelectorAll("body *")].filter(one => one.checkVisibility() && !one.matches("script, style, option, datalist"));
  const said = one => one.matches("input, select, button") || [...one.childNodes].some(part => part.nodeType === 3 && part.data.trim());
  return seen.filter(said).map(one => {
    const [low, high] = [getComputedStyle(one).color, behind(one)].map(light).sort((a, b) => a - b);
    return [`${one.tagName} ${one.id || one.textContent.trim().slice(0, 20)}`, high / low];
  }).filter(([, contrast]) => contrast < 4.5);
})()"""

# The browser reads its file 3, and writes its file 4.
AS_3_AND_4 = "import os, sys; os.dup2(int(sys.argv[1]), 3); os.dup2(int(sys.argv[2]), 4); os.execv(sys.argv[3], sys.argv[3:])"


def found() -> str | None:
    """The browser of this machine, if it has one."""
    return next((path for name in NAMES if (path := shutil.which(name))), None)


def high(file: int) -> int:
    """The same file under a number that is neither 3 nor 4."""
    other = fcntl.fcntl(file, fcntl.F_DUPFD_CLOEXEC, 10)
    os.close(file)
    return other


class Browser:
    """One page of a browser, which ends with the block."""

    def __init__(self, width: int = 1280, height: int = 800) -> None:
        self.folder = tempfile.TemporaryDirectory(ignore_cleanup_errors=True)
        self.width, self.height = width, height
        self.number, self.session, self.rest = 0, "", b""
        self.faults: list[str] = []         # what the page said on its console as errors

    def __enter__(self) -> "Browser":
        program = found()
        assert program
        get, self.put = os.pipe()
        self.get, put = os.pipe()
        get, put = high(get), high(put)
        words = ["--headless", "--no-sandbox", "--disable-gpu", "--hide-scrollbars", "--remote-debugging-pipe", "--no-first-run",
                 f"--user-data-dir={self.folder.name}", f"--window-size={self.width},{self.height}"]
        command = [sys.executable, "-c", AS_3_AND_4, str(get), str(put), program, *words]
        self.process = subprocess.Popen(
            command, pass_fds=(get, put), stdin=subprocess.DEVNULL, stdout=subprocess.DEVNULL, stderr=subprocess.DEVNULL)
        os.close(get)
        os.close(put)
        try:
            target = self.call("Target.createTarget", url="about:blank")["targetId"]
            self.session = self.call("Target.attachToTarget", targetId=target, flatten=True)["sessionId"]
            for domain in ("Page", "Runtime", "Log"):
                self.call(f"{domain}.enable")
            self.size(self.width, self.height)
        except BaseException:
            self.__exit__()
            raise
        return self

    def __exit__(self, *_: object) -> None:
        os.close(self.put)                  # which ends it, and all that it has started
        try:
            self.process.wait(10)
        except subprocess.TimeoutExpired:
            self.process.kill()
            self.process.wait()
        os.close(self.get)
        self.folder.cleanup()

    def call(self, method: str, **params: Any) -> dict[str, Any]:
        self.number += 1
        said: dict[str, Any] = {"id": self.number, "method": method, "params": params}
        if self.session:
            said["sessionId"] = self.session
        os.write(self.put, json.dumps(said).encode() + b"\0")
        while True:
            heard = self._hear()
            if heard.get("id") == self.number:
                if "error" in heard:
                    raise RuntimeError(f"{method}: {heard['error']}")
                result: dict[str, Any] = heard["result"]
                return result
            self._note(heard)

    def _hear(self) -> dict[str, Any]:
        while b"\0" not in self.rest:
            data = os.read(self.get, 1 << 20)
            if not data:
                raise RuntimeError("the browser has ended")
            self.rest += data
        one, _, self.rest = self.rest.partition(b"\0")
        heard: dict[str, Any] = json.loads(one)
        return heard

    def _note(self, heard: dict[str, Any]) -> None:
        params = heard.get("params", {})
        if heard.get("method") == "Runtime.exceptionThrown":
            self.faults.append(params["exceptionDetails"].get("exception", {}).get("description", "an exception"))
        elif heard.get("method") == "Log.entryAdded" and params["entry"]["level"] == "error":
            self.faults.append(params["entry"]["text"])

    def size(self, width: int, height: int, scale: float = 1) -> None:
        self.call("Emulation.setDeviceMetricsOverride", width=width, height=height, deviceScaleFactor=scale, mobile=False)

    def scheme(self, name: str) -> None:
        """Has pages shown as a system that asks for `light` or `dark` shows them."""
        self.call("Emulation.setEmulatedMedia", features=[{"name": "prefers-color-scheme", "value": name}])

    def faint(self) -> list[tuple[str, float]]:
        """The texts of the page that are hard to read."""
        return [(text, contrast) for text, contrast in self.value(FAINT)]

    def open(self, path: str, ready: str = "document.readyState === 'complete'") -> None:
        self.call("Page.navigate", url=f"file://{os.path.abspath(path)}")
        self.wait(ready)

    def wait(self, claim: str) -> None:
        until = time.monotonic() + SECONDS
        while not self.value(claim):
            if time.monotonic() > until:
                raise RuntimeError(f"in vain: {claim}; {self.faults}")
            time.sleep(0.05)

    def value(self, script: str) -> Any:
        """What a script is worth in the page."""
        said = self.call("Runtime.evaluate", expression=script, returnByValue=True, awaitPromise=True)
        if "exceptionDetails" in said:
            raise RuntimeError(said["exceptionDetails"].get("exception", {}).get("description", "an exception"))
        return said["result"].get("value")

    def key(self, name: str, is_shifted: bool = False) -> None:
        text = name if len(name) == 1 else ""
        more: dict[str, Any] = {"windowsVirtualKeyCode": KEYS[name]} if name in KEYS else {"text": text}
        for kind in ("keyDown" if text else "rawKeyDown", "keyUp"):
            self.call("Input.dispatchKeyEvent", type=kind, key=name, modifiers=8 if is_shifted else 0, **more)

    def mouse(self, kind: str, x: float, y: float, **more: Any) -> None:
        self.call("Input.dispatchMouseEvent", type=kind, x=x, y=y, **more)

    def shot(self, path: str, height: int | None = None) -> None:
        """What is seen, as PNG; or more of the page, from its top."""
        clip = {"x": 0, "y": 0, "width": self.width, "height": height or self.height, "scale": 1}
        data = self.call("Page.captureScreenshot", format="png", clip=clip, captureBeyondViewport=height is not None)["data"]
        with open(path, "wb") as file:
            file.write(base64.b64decode(data))

    def paper(self, path: str) -> None:
        """The page as it is printed, as PDF."""
        data = self.call("Page.printToPDF", preferCSSPageSize=True, printBackground=False)["data"]
        with open(path, "wb") as file:
            file.write(base64.b64decode(data))
