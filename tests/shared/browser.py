"""Chromium for tests: without a window, and without a network."""
from __future__ import annotations

from typing import Any

from selenium import webdriver
from selenium.webdriver.chrome.service import Service


def started(*words: str, is_offline: bool = True) -> webdriver.Chrome:
    """A browser without a window, and without a network unless it is online. The words are options of Chromium."""
    options: Any = webdriver.ChromeOptions()
    options.binary_location = "/usr/bin/chromium"
    for word in ["--headless=new", "--no-sandbox", "--hide-scrollbars", "--disable-dev-shm-usage", *words]:
        options.add_argument(word)
    options.set_capability("goog:loggingPrefs", {"browser": "ALL", "performance": "ALL"})
    browser = webdriver.Chrome(service=Service("/usr/bin/chromedriver"), options=options)
    browser.execute_cdp_cmd("Network.enable", {})
    offline = {"offline": is_offline, "latency": 0, "downloadThroughput": 0, "uploadThroughput": 0}
    browser.execute_cdp_cmd("Network.emulateNetworkConditions", offline)
    return browser


def set_width(browser: webdriver.Chrome, width: int, height: int = 844) -> None:
    """Sets the width of the page."""
    metrics = {"width": width, "height": height, "deviceScaleFactor": 1, "mobile": False}
    browser.execute_cdp_cmd("Emulation.setDeviceMetricsOverride", metrics)
