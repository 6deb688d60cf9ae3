"""A browser without a screen, and what the tests see in it."""
import hashlib
import os
import re
import shutil
import struct
import zlib
from collections.abc import Iterator
from dataclasses import dataclass
from typing import Any

import pytest

SIGNATURE = 8
"""Bytes in front of the first chunk of a PNG file."""
SOURCE = b"Source\0"
"""The name under which a picture keeps the digest of what it shows."""

COLOURS = """
const [data, done] = arguments, image = new Image();
image.onload = () => {
  const canvas = document.createElement("canvas");
  Object.assign(canvas, {width: image.width, height: image.height});
  const pen = canvas.getContext("2d");
  pen.drawImage(image, 0, 0);
  const dots = pen.getImageData(0, 0, image.width, image.height).data, found = {width: image.width, height: image.height, dark: 0, light: 0, red: 0};
  for (let at = 0; at < dots.length; at += 4) {
    const [red, green, blue] = [dots[at], dots[at + 1], dots[at + 2]], sum = red + green + blue;
    found.dark += sum < 180;
    found.light += sum > 600;
    found.red += red > green + 60 && red > blue + 60;
  }
  for (const name of ["dark", "light", "red"]) found[name] /= dots.length / 4;
  done(found);
};
image.src = `data:image/png;base64,${data}`;
"""
"""How large a picture is, and which share of it is dark, light and red."""


def opened() -> Iterator[Any]:
    """The browser; a test that can't have it is skipped."""
    webdriver = pytest.importorskip("selenium.webdriver", reason="python3-selenium isn't installed")
    driver, program = shutil.which("chromedriver"), shutil.which("chromium")
    if driver is None or program is None:
        pytest.skip("chromium or chromium-driver isn't installed")
    options = webdriver.ChromeOptions()
    options.binary_location = program
    for word in ("--headless", "--no-sandbox", "--disable-gpu", "--disable-dev-shm-usage", "--hide-scrollbars"):
        options.add_argument(word)
    options.set_capability("goog:loggingPrefs", {"browser": "ALL"})
    from selenium.common.exceptions import WebDriverException
    from selenium.webdriver.chrome.service import Service
    try:
        found = webdriver.Chrome(service=Service(driver), options=options)
    except WebDriverException as fault:
        pytest.skip(f"chromium is installed, but doesn't start here: {fault.msg}")
    found.set_script_timeout(60)
    yield found
    found.quit()


@dataclass
class Window:
    """A window of a size in pixels, and which of both styles its reader has set."""

    width: int = 1160
    height: int = 1000
    scheme: str = "light"

    def show(self, browser: Any, page: Any) -> None:
        """Opens a page; nothing may be wrong with it."""
        browser.execute_cdp_cmd("Emulation.setEmulatedMedia", {"features": [{"name": "prefers-color-scheme", "value": self.scheme}]})
        self.resize(browser)
        browser.get(page.as_uri())
        self.settle(browser)
        assert browser.get_log("browser") == []

    def resize(self, browser: Any) -> None:
        size = {"width": self.width, "height": self.height, "deviceScaleFactor": 1, "mobile": False}
        browser.execute_cdp_cmd("Emulation.setDeviceMetricsOverride", size)

    @staticmethod
    def settle(browser: Any) -> None:
        """Waits until what was asked for is drawn."""
        browser.execute_async_script("const done = arguments[0]; requestAnimationFrame(() => requestAnimationFrame(done));")


def colours(browser: Any) -> dict[str, float]:
    """What is seen of the page that is open."""
    found: dict[str, float] = browser.execute_async_script(COLOURS, browser.get_screenshot_as_base64())
    return found


def chunks(png: bytes) -> Iterator[tuple[int, bytes, bytes]]:
    """The chunks of a PNG file: where each ends, its kind and its data."""
    at = SIGNATURE
    while at < len(png):
        length, kind = struct.unpack(">I4s", png[at:at + 8])
        yield at + 12 + length, kind, png[at + 8:at + 8 + length]
        at += 12 + length


def source_of(png: bytes) -> str:
    """The digest that a picture keeps; an empty text where it keeps none."""
    return next((data[len(SOURCE):].decode() for _, kind, data in chunks(png) if kind == b"tEXt" and data.startswith(SOURCE)), "")


def with_source(png: bytes, digest: str) -> bytes:
    """A picture that keeps a digest, behind its head."""
    end = next(chunks(png))[0]
    data = b"tEXt" + SOURCE + digest.encode()
    return png[:end] + struct.pack(">I", len(data) - 4) + data + struct.pack(">I", zlib.crc32(data)) + png[end:]


def digest_of(page: str, window: Window) -> str:
    """What a picture of a page depends on, but for what the version of graphviz decides."""
    return hashlib.sha256(re.sub(r"<svg width.*?</svg>", "", page, flags=re.DOTALL).encode() + repr(window).encode()).hexdigest()[:16]


def keep(browser: Any, page: Any, window: Window, picture: str) -> None:
    """Puts a picture of the page that is open, where the one that stands there shows an older one, or none stands there."""
    digest = digest_of(page.read_text(), window)
    if os.path.exists(picture):
        with open(picture, "rb") as file:
            if source_of(file.read()) == digest:
                return
    with open(picture, "wb") as file:
        file.write(with_source(browser.get_screenshot_as_png(), digest))
