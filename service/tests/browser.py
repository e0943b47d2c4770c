"""Chromium without a window, driven by selenium. It reaches loopback alone."""

from __future__ import annotations

import time
from collections.abc import Callable, Iterator
from contextlib import contextmanager
from typing import Any

from selenium import webdriver
from selenium.common.exceptions import ElementNotInteractableException, NoSuchElementException, StaleElementReferenceException
from selenium.webdriver.chrome.service import Service as Driver
from selenium.webdriver.common.by import By

WAIT_SECONDS = 30.0
LONGEST_PAUSE = 0.25
# What a look meets while a page is drawn anew.
NOT_YET = (NoSuchElementException, StaleElementReferenceException, ElementNotInteractableException)
WORDS = [
    "--headless=new",
    "--no-sandbox",
    "--disable-dev-shm-usage",
    "--disable-gpu",
    "--no-first-run",
    "--disable-background-networking",
    "--disable-component-update",
    "--disable-sync",
    "--host-resolver-rules=MAP * ~NOTFOUND, EXCLUDE 127.0.0.1, EXCLUDE localhost",
]


class Browser:
    """One browser, and what a person does with it: look, click, type."""

    def __init__(self, driver: Any) -> None:
        self.driver = driver

    def open(self, url: str) -> None:
        self.driver.get(url)

    def until(self, look: Callable[[], Any], seconds: float = WAIT_SECONDS) -> Any:
        """What a look sees, after it sees something. It looks less and less often: each look takes the browser's time."""
        deadline, pause = time.monotonic() + seconds, 0.05
        while True:
            try:
                seen = look()
                if seen:
                    return seen
            except NOT_YET:
                pass
            if time.monotonic() > deadline:
                raise TimeoutError(f"not seen within {seconds:g} seconds: {self.text()[-2000:]}")
            time.sleep(pause)
            pause = min(LONGEST_PAUSE, 1.3 * pause)

    def find(self, selector: str) -> Any:
        return self.until(lambda: self.driver.find_element(By.CSS_SELECTOR, selector))

    def all(self, selector: str) -> list[Any]:
        return list(self.driver.find_elements(By.CSS_SELECTOR, selector))

    def click(self, selector: str) -> None:
        """Clicks what is shown. A page that follows may draw it anew in between."""

        def press() -> bool:
            self._press(self.driver.find_element(By.CSS_SELECTOR, selector))
            return True

        self.until(press)

    def click_text(self, text: str, within: str = "body") -> None:
        """Clicks the link or button with this text."""
        path = f".//*[self::a or self::button][normalize-space()='{text}']"

        def press() -> bool:
            self._press(self.driver.find_element(By.CSS_SELECTOR, within).find_element(By.XPATH, path))
            return True

        self.until(press)

    def _press(self, part: Any) -> None:
        """Clicks a part of the page that may stand under the header, which stays."""
        self.run("arguments[0].scrollIntoView({block: 'center'})", part)
        part.click()

    def text(self, selector: str = "body") -> str:
        return str(self.driver.execute_script("return document.querySelector(arguments[0])?.innerText ?? ''", selector))

    def texts(self, selector: str) -> list[str]:
        """What each of these parts shows, by one request to the browser."""
        return list(
            self.run("return [...document.querySelectorAll(arguments[0])].map((one) => one.innerText.trim())", selector)
        )

    def run(self, script: str, *arguments: Any) -> Any:
        return self.driver.execute_script(script, *arguments)

    def see(self, text: str, selector: str = "body", seconds: float = WAIT_SECONDS) -> None:
        """Returns after a text is shown, whatever spaces stand between its words."""
        self.until(lambda: text in " ".join(self.text(selector).split()), seconds)

    def complaints(self) -> list[str]:
        """What the browser complained of: faults of scripts, and what the content policy refused."""
        return [entry["message"] for entry in self.driver.get_log("browser") if entry["level"] in ("SEVERE", "WARNING")]

    def size(self, width: int, height: int) -> None:
        metrics = {"width": width, "height": height, "deviceScaleFactor": 1, "mobile": width < 600}
        self.driver.execute_cdp_cmd("Emulation.setDeviceMetricsOverride", metrics)

    def scheme(self, name: str) -> None:
        features = [{"name": "prefers-color-scheme", "value": name}, {"name": "prefers-reduced-motion", "value": "reduce"}]
        self.driver.execute_cdp_cmd("Emulation.setEmulatedMedia", {"features": features})


@contextmanager
def browsing() -> Iterator[Browser]:
    options: Any = webdriver.ChromeOptions()
    options.binary_location = "/usr/bin/chromium"
    options.set_capability("goog:loggingPrefs", {"browser": "ALL"})
    for word in WORDS:
        options.add_argument(word)
    driver = webdriver.Chrome(service=Driver("/usr/bin/chromedriver"), options=options)
    try:
        browser = Browser(driver)
        browser.size(1280, 900)
        browser.scheme("light")
        yield browser
    finally:
        driver.quit()
