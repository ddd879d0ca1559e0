#!/usr/bin/env python3
"""Looks at the page in a real browser: what it shows is what the node says, keys work, and nothing is fetched from elsewhere. The node may be
fake_node.py or a real one; with --stop it is stopped at the end. A line for each thing, and a count; status 1 at the first that isn't so.

    look.py URL [--token T] [--shots FOLDER] [--stop]        needs Python's selenium, Chromium and its driver (Debian: python3-selenium, chromium-driver)"""

import argparse
import json
import os
import sys
import time
import urllib.request

from selenium import webdriver
from selenium.common.exceptions import WebDriverException
from selenium.webdriver.chrome.service import Service
from selenium.webdriver.common.action_chains import ActionChains
from selenium.webdriver.common.by import By
from selenium.webdriver.common.keys import Keys

COLUMNS = ["Pid", "Name", "State", "Mailbox", "Transit", "Stack", "At", "Instance"]

# How many seconds something may take to be seen.
PATIENCE = 20


class Look:
    def __init__(self, driver, options):
        self.driver, self.options, self.done = driver, options, 0

    def so(self, what, holds):
        print(("ok   " if holds else "NOT  ") + what, flush=True)
        if not holds:
            self.shot("not")
            sys.exit(1)
        self.done += 1

    def soon(self, what, holds):
        end = time.monotonic() + PATIENCE
        while not (found := holds()) and time.monotonic() < end:
            time.sleep(0.1)
        self.so(what, bool(found))

    def get(self, path):
        headers = {"Authorization": "Bearer " + self.options.token} if self.options.token else {}
        request = urllib.request.Request(self.options.url.rstrip("/") + path, headers=headers)
        with urllib.request.urlopen(request, timeout=PATIENCE) as answer:
            return json.load(answer)

    def all(self, css):
        return self.driver.find_elements(By.CSS_SELECTOR, css)

    def texts(self, css):
        return self.driver.execute_script("return [...document.querySelectorAll(arguments[0])].map(e => e.innerText)", css)

    def text(self, css):
        return (self.texts(css) or [""])[0]

    def click(self, css):
        """Clicks, also where the page has just put another element into the place of the one that was found."""
        end = time.monotonic() + PATIENCE
        while True:
            try:
                return self.all(css)[0].click()
            except (IndexError, WebDriverException):
                if time.monotonic() >= end:
                    raise
                time.sleep(0.1)

    def press(self, key):
        ActionChains(self.driver).send_keys(key).perform()

    def size(self, width, height):
        self.driver.execute_cdp_cmd("Emulation.setDeviceMetricsOverride", {"width": width, "height": height, "deviceScaleFactor": 1, "mobile": False})

    def shot(self, name):
        if self.options.shots:
            self.driver.save_screenshot(os.path.join(self.options.shots, name + ".png"))

    def opens(self):
        self.size(1280, 900)
        self.driver.get(self.options.url + ("#token=" + self.options.token if self.options.token else ""))
        self.soon("it says it is live", lambda: self.text("#state") == "live")
        self.soon("there are processes", lambda: self.all("#pane tbody tr"))
        node = self.get("/api/node")
        self.so("the token isn't in the address", "token" not in self.driver.current_url)
        self.so("the title is the node's name", node["name"] in self.driver.title)
        self.so("six tiles", len(self.all(".tile")) == 6)
        self.so("a bar for each scheduler", len(self.all(".sched")) == len(node["schedulers"]))
        self.so("a journal in a file says so", ("in a file" in self.text("#tiles")) == node["journal"]["in_file"])

    def shows_processes(self):
        first = self.get("/api/processes?limit=50&state=live")["processes"]
        heads = [head.strip(" ↑↓") for head in self.texts("#pane th")]
        self.so("the columns", heads == COLUMNS)
        self.so("a row for each process of the first part", len(self.all("#pane tbody tr")) == len(first))
        self.so("the first is the node's first", self.texts("#pane tbody td:nth-child(1)")[0] == f"<0.{first[0]['pid']}.0>")
        time.sleep(self.options.seconds)
        self.shot("processes-1280")
        for key, column in (("Transit", 5), ("Stack", 6), ("Mailbox", 4)):
            self.click(f"#pane th:nth-child({column}) button")
            self.soon(f"sorted by {key.lower()}", lambda: self.all(f"#pane th:nth-child({column})[aria-sort=descending]"))
            time.sleep(1.5)
            counts = [int("".join(c for c in text if c.isdigit())) for text in self.texts(f"#pane tbody td:nth-child({column})")]
            self.so("the greatest first", counts == sorted(counts, reverse=True))

    def opens_one(self):
        self.press("j")
        self.press("j")
        self.so("j goes to a row", self.driver.execute_script("return document.activeElement.tagName") == "TR")
        self.press(Keys.ENTER)
        self.soon("Enter opens a process", lambda: self.all("#box[open]") and "<0." in self.text("#box h2") and "words" in self.text("#box"))
        self.shot("process-1280")
        self.press(Keys.ESCAPE)
        self.soon("Esc closes it", lambda: not self.all("#box[open]"))
        self.press("/")
        self.so("/ goes to the search", self.driver.execute_script("return document.activeElement.id") == "q")
        module = self.get("/api/modules")["modules"][0]["name"]
        self.press(module)
        time.sleep(1.5)
        self.so("the search finds by name and module", all(module in text for text in self.texts("#pane tbody tr")))
        for _ in module:
            self.press(Keys.BACKSPACE)
        self.press(Keys.ESCAPE)

    def opens_tabs(self):
        for key, name in zip("2345", ("modules", "journal", "connections", "log"), strict=True):
            self.press(key)
            self.soon(f"{key} opens {name}", lambda: self.all(f"#tab-{name}[aria-selected=true]") and len(self.text("#pane")) > 4)
            time.sleep(1.2)
            self.shot(name + "-1280")
        self.press("p")
        self.soon("p pauses", lambda: self.text("#state") == "paused")
        self.press("p")

    def fits_a_phone(self):
        self.size(390, 844)
        for scheme in ("light", "dark"):
            self.driver.execute_cdp_cmd("Emulation.setEmulatedMedia", {"features": [{"name": "prefers-color-scheme", "value": scheme}]})
            for key in "12345":
                self.press(key)
                time.sleep(0.8)
                wide = self.driver.execute_script("return document.documentElement.scrollWidth")
                self.so(f"tab {key} isn't wider than a phone, {scheme}", wide <= 390)
            self.press("1")
            time.sleep(0.8)
            self.shot("phone-" + scheme)
        self.size(1280, 900)
        self.shot("dark-1280")

    def stops(self):
        can_stop = self.get("/api/node")["can_stop"]
        self.so("the stop is there for who may", bool(self.driver.execute_script("return !document.getElementById('stop').hidden")) == can_stop)
        if not can_stop:
            return
        self.click("#stop")
        self.soon("the stop says what is lost", lambda: "lost" in self.text("#box"))
        self.shot("stop-1280")
        if self.options.stop:
            self.click("#really")
            self.soon("it says that it stopped", lambda: self.text("#state") == "stopped")

    def is_quiet(self):
        events = [json.loads(line["message"])["message"] for line in self.driver.get_log("performance")]
        asked = [event["params"]["request"]["url"] for event in events if event["method"] == "Network.requestWillBeSent"]
        elsewhere = [url for url in asked if not url.startswith((self.options.url.rstrip("/") + "/", "data:"))]
        self.so("nothing is fetched from elsewhere" + str(elsewhere[:1] or ""), asked and not elsewhere)
        errors = [line["message"] for line in self.driver.get_log("browser") if line["level"] == "SEVERE"]
        self.so("no error in the browser's log" + str(errors[:1] or ""), not errors)


def browser():
    options = webdriver.ChromeOptions()
    for word in ("--headless=new", "--no-sandbox", "--disable-gpu", "--disable-dev-shm-usage", "--window-size=1280,900"):
        options.add_argument(word)
    options.set_capability("goog:loggingPrefs", {"performance": "ALL", "browser": "ALL"})
    return webdriver.Chrome(service=Service("/usr/bin/chromedriver"), options=options)


def main():
    parser = argparse.ArgumentParser(description=__doc__, formatter_class=argparse.RawDescriptionHelpFormatter)
    parser.add_argument("url")
    parser.add_argument("--token")
    parser.add_argument("--shots")
    parser.add_argument("--stop", action="store_true")
    parser.add_argument("--seconds", type=float, default=3.0, help="how long the plots grow before the first picture")
    options = parser.parse_args()
    driver = browser()
    look = Look(driver, options)
    try:
        for part in (look.opens, look.shows_processes, look.opens_one, look.opens_tabs, look.fits_a_phone, look.stops, look.is_quiet):
            part()
    finally:
        driver.quit()
    print(f"{look.done} of {look.done}")


if __name__ == "__main__":
    main()
