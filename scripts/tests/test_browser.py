"""The page in a browser: sorting, filtering, pages, widths. It needs Debian's chromium, which the scripts themselves do not."""

from __future__ import annotations

import shutil
import unittest
from collections.abc import Callable
from typing import Any

from tests.support import FolderCase, need_numpy

need_numpy()
try:
    from selenium import webdriver
    from selenium.webdriver.common.action_chains import ActionChains
    from selenium.webdriver.common.by import By
    from selenium.webdriver.support.wait import WebDriverWait
except ModuleNotFoundError:
    raise unittest.SkipTest("selenium is missing: apt-get install python3-selenium chromium chromium-driver") from None
CHROMIUM, DRIVER = shutil.which("chromium") or "", shutil.which("chromedriver") or ""
if not CHROMIUM or not DRIVER:
    raise unittest.SkipTest("chromium is missing: apt-get install chromium chromium-driver")

from conjtools.epochs import read_epoch  # noqa: E402
from conjtools.show import main  # noqa: E402
from tests.crossings import Crossing, write_folder  # noqa: E402

FIRST, SECOND = 40, 25
WIDTHS = (1280, 400)


def browser() -> Any:
    """A browser without a window."""
    options: Any = webdriver.ChromeOptions()
    options.binary_location = CHROMIUM
    for word in ("--headless=new", "--no-sandbox", "--disable-gpu", "--window-size=1280,900"):
        options.add_argument(word)
    options.set_capability("goog:loggingPrefs", {"browser": "ALL"})
    return webdriver.Chrome(service=webdriver.chrome.service.Service(DRIVER), options=options)


class Page(FolderCase):
    """A page of a thousand crossings, of which all is known."""

    crossings: list[Crossing]

    def setUp(self) -> None:
        super().setUp()
        self.crossings = write_folder(self.folder, FIRST, SECOND)
        self.page = self.folder / "screen.html"
        self.assertEqual(main([str(self.folder), "--out", str(self.page), "--most", "6"]), 0)
        self.driver = browser()
        self.addCleanup(self.driver.quit)
        self.driver.get(self.page.as_uri())

    def numbers(self) -> list[int]:
        """The numbers of the encounters that are shown, in order."""
        script = "return [...document.querySelectorAll('#encounter-table tbody tr')].map((row) => row.cells[0].textContent)"
        return [int(text) for text in self.driver.execute_script(script)]

    def told(self) -> str:
        """Which rows are shown, as the page tells it."""
        return str(self.driver.find_element(By.CSS_SELECTOR, "#encounter-table .told").text)

    def filled(self, name: str, value: str, wanted: str) -> None:
        """Fills a field of the filter, and waits for the rows."""
        self.driver.execute_script(
            "const field = document.getElementById('encounter-filter').elements.namedItem(arguments[0]); field.value = arguments[1];"
            "field.dispatchEvent(new Event('input', { bubbles: true }));",
            name,
            value,
        )
        WebDriverWait(self.driver, 30).until(lambda _: self.told() == wanted)

    def ordered(self, key: Callable[[Crossing], int], falling: bool = False) -> list[int]:
        """The numbers of the first 50 encounters by a key; those that are equal keep their order."""
        sign = -1 if falling else 1
        return [place + 1 for place in sorted(range(len(self.crossings)), key=lambda place: sign * key(self.crossings[place]))[:50]]

    def heading(self, label: str) -> Any:
        """The button of a column's heading."""
        path = f"//div[@id='encounter-table']//th/button[translate(., '\u00a0', ' ') = '{label}']"
        return self.driver.find_element(By.XPATH, path)

    def test_table(self) -> None:
        count = len(self.crossings)
        self.assertEqual((self.told(), self.numbers()), ("Rows 1 to 50 of 1,000", self.ordered(lambda one: one.miss)))
        self.heading("Miss distance (m)").click()
        self.assertEqual(self.numbers(), self.ordered(lambda one: one.miss, falling=True))
        self.heading("Closest approach (UTC)").click()
        self.assertEqual(self.numbers(), self.ordered(lambda one: one.tick))
        self.heading("Object 2").send_keys("\n")
        self.assertEqual(self.numbers(), self.ordered(lambda one: one.b), "by the keyboard too")
        self.driver.find_element(By.XPATH, "//div[@id='encounter-table']//button[starts-with(., 'Next')]").click()
        self.assertEqual(self.told(), "Rows 51 to 100 of 1,000")

        self.filled("q", "y 0003", f"Rows 1 to {SECOND} of {SECOND}")
        self.assertEqual({self.crossings[number - 1].a for number in self.numbers()}, {4})
        self.filled("q", "y 0003, z 0007", "Rows 1 to 1 of 1")
        self.assertEqual(self.numbers(), [3 * SECOND + 7 + 1])
        self.filled("q", "2099-004a", f"Rows 1 to {SECOND} of {SECOND}")
        self.filled("q", "no such", "No row is chosen by the filter.")
        self.filled("q", "", "Rows 1 to 50 of 1,000")
        near = sum(one.miss <= 500 * 10**9 for one in self.crossings)
        self.filled("miss_to", "500", f"Rows 1 to {min(50, near)} of {near}")
        self.filled("mark", "undecided", "No row is chosen by the filter.")
        self.driver.find_element(By.CSS_SELECTOR, "#encounter-filter button[type=reset]").click()
        WebDriverWait(self.driver, 30).until(lambda _: self.told() == f"Rows 1 to 50 of {count:,}")
        self.assertEqual(self.driver.get_log("browser"), [])

    def test_state_in_the_address(self) -> None:
        self.driver.get("about:blank")
        self.driver.get(f"{self.page.as_uri()}#q=y+0005&sort=-time")
        wanted = sorted((one for one in self.crossings if one.a == 6), key=lambda one: -one.tick)
        self.assertEqual(self.numbers(), [(one.a - 1) * SECOND + one.b - FIRST for one in wanted])
        self.filled("q", "y 0001", f"Rows 1 to {SECOND} of {SECOND}")
        self.assertTrue(str(self.driver.current_url).endswith("#q=y+0001&sort=-time"))

    def test_point_of_the_timeline_leads_to_its_row(self) -> None:
        self.filled("q", "y 0003, z 0007", "Rows 1 to 1 of 1")
        one = self.crossings[3 * SECOND + 7]
        self.driver.execute_script(
            "const canvas = document.getElementById('timeline'), box = canvas.getBoundingClientRect();"
            "const data = JSON.parse(document.getElementById('data').textContent);"
            "const x = 84 + (arguments[0] - data.window[0]) / (data.window[1] - data.window[0]) * (canvas.clientWidth - 98);"
            "for (let y = 12; y < canvas.clientHeight - 40; y += 6) for (const name of ['pointerdown', 'pointerup'])"
            "canvas.dispatchEvent(new PointerEvent(name, { clientX: box.left + canvas.clientLeft + x, clientY: box.top + canvas.clientTop + y }));",
            one.tick,
        )
        self.assertEqual(len(self.driver.find_elements(By.CSS_SELECTOR, "#encounter-table tr.chosen")), 1)

    def test_dragging_over_the_timeline_chooses_a_time(self) -> None:
        canvas = self.driver.find_element(By.ID, "timeline")
        actions: Any = ActionChains
        actions(self.driver).move_to_element_with_offset(canvas, -100, 0).click_and_hold().move_by_offset(120, 0).release().perform()
        WebDriverWait(self.driver, 30).until(lambda _: not self.told().endswith(" 1,000"))
        first, last = self.driver.execute_script("const f = document.getElementById('encounter-filter').elements; return [f.time_from.value, f.time_to.value]")
        chosen = [one for one in self.crossings if read_epoch(first) <= one.tick <= read_epoch(last)]
        self.assertTrue(self.told().endswith(f" of {len(chosen)}"), (first, last, self.told(), len(chosen)))
        self.assertTrue(0 < len(chosen) < len(self.crossings))

    def test_widths(self) -> None:
        """Nothing is wider than the page, at both widths; curves are drawn."""
        for width in WIDTHS:
            self.driver.execute_cdp_cmd("Emulation.setDeviceMetricsOverride", {"width": width, "height": 900, "deviceScaleFactor": 1, "mobile": False})
            self.driver.get(self.page.as_uri())
            self.assertTrue(self.driver.execute_script("return document.documentElement.scrollWidth <= document.documentElement.clientWidth"))
            self.assertEqual(len(self.driver.find_elements(By.CSS_SELECTOR, "svg.distance polyline")), 6)
            self.assertEqual(self.driver.get_log("browser"), [])


if __name__ == "__main__":
    unittest.main()
