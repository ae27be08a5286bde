"""Headless Chromium, driven by Debian's chromium-driver and python3-selenium."""
import base64
import os
import shutil
import tempfile

from selenium import webdriver
from selenium.webdriver.chrome.options import Options
from selenium.webdriver.chrome.service import Service

WIDE, NARROW = 1440, 380
CONTRAST = """
const found = [];
const parse = (text) => (text.match(/[\\d.]+/g) || []).map(Number);
const light = (rgb) => { const part = rgb.slice(0, 3).map((v) => { v /= 255; return v <= 0.03928 ? v / 12.92 : ((v + 0.055) / 1.055) ** 2.4; });
  return 0.2126 * part[0] + 0.7152 * part[1] + 0.0722 * part[2]; };
const ground = (at) => { for (; at; at = at.parentElement) { const c = parse(getComputedStyle(at).backgroundColor);
  if (c.length === 3 || c[3] > 0.99) return c; } return parse(getComputedStyle(document.body).backgroundColor); };
const walker = document.createTreeWalker(document.body, NodeFilter.SHOW_TEXT);
while (walker.nextNode()) {
  const text = walker.currentNode.textContent.trim(), at = walker.currentNode.parentElement;
  if (!text || !at.getClientRects().length || ["SCRIPT", "STYLE", "OPTION"].includes(at.tagName) || at.closest("title, .vh, [hidden]")) continue;
  const style = getComputedStyle(at), inSvg = at.namespaceURI.endsWith("svg");
  const ink = parse(inSvg ? style.fill : style.color), back = ground(at);
  const a = light(ink) + 0.05, b = light(back) + 0.05, ratio = Math.max(a, b) / Math.min(a, b);
  if (ratio < 4.5 && !(inSvg && style.fill === "none")) found.push(`${ratio.toFixed(2)} ${at.tagName}.${at.className.baseVal ?? at.className} ${text.slice(0, 30)}`);
}
return found;
"""


class Browser:
    """One window."""

    def __init__(self):
        self._profile = tempfile.mkdtemp(prefix="page-chromium-")
        options = Options()
        for word in ("--headless=new", "--no-sandbox", "--disable-gpu", "--disable-dev-shm-usage", "--hide-scrollbars", "--no-first-run", "--disable-background-networking",
                     "--disable-component-update", f"--user-data-dir={self._profile}"):
            options.add_argument(word)
        options.set_capability("goog:loggingPrefs", {"browser": "ALL"})
        self.driver = webdriver.Chrome(service=Service(shutil.which("chromedriver")), options=options)
        self.driver.set_page_load_timeout(120)
        self.form(WIDE, False)

    def close(self):
        self.driver.quit()
        shutil.rmtree(self._profile, ignore_errors=True)

    def form(self, width, dark, height=900):
        """Sets the width, and the colours that the reader's system asks for."""
        self.driver.execute_cdp_cmd("Emulation.setDeviceMetricsOverride", {"width": width, "height": height, "deviceScaleFactor": 1, "mobile": width < 700})
        media = [{"name": "prefers-color-scheme", "value": "dark" if dark else "light"}, {"name": "prefers-reduced-motion", "value": "reduce"}]
        self.driver.execute_cdp_cmd("Emulation.setEmulatedMedia", {"features": media})

    def get(self, address):
        self.driver.get(address)

    def run(self, script, *more):
        return self.driver.execute_script(script, *more)

    def overflow(self):
        """By how many pixels the page is wider than the window."""
        return self.run("return document.documentElement.scrollWidth - window.innerWidth")

    def contrasts(self):
        """Texts whose contrast to their ground is below 4.5, as WCAG's AA asks for."""
        return self.run(CONTRAST)

    def complaints(self):
        """What the browser logged since the last time: violations of the policy, errors of scripts, and what couldn't be loaded."""
        return [entry["message"] for entry in self.driver.get_log("browser") if entry["level"] in ("SEVERE", "WARNING")]

    def picture(self, path, highest=2600, scale=1.0):
        """The whole page as a PNG."""
        size = self.run("return [document.documentElement.clientWidth, document.documentElement.scrollHeight]")
        clip = {"x": 0, "y": 0, "width": size[0], "height": min(size[1], highest), "scale": scale}
        shot = self.driver.execute_cdp_cmd("Page.captureScreenshot", {"format": "png", "captureBeyondViewport": True, "clip": clip})
        os.makedirs(os.path.dirname(path), exist_ok=True)
        with open(path, "wb") as file:
            file.write(base64.b64decode(shot["data"]))
