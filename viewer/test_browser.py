#!/usr/bin/env python3
"""Tests of the viewer's page in a real browser, Debian's chromium.

    python3 viewer/test_browser.py

Needs the Debian packages chromium-driver, which brings chromium, and python3-selenium; where they are not
installed it says so and ends with 0.
"""

import importlib.util
import os
import shutil
import signal
import sys
import tempfile
import time
import unittest

HERE = os.path.dirname(os.path.realpath(__file__))
# Debian's own Python knows Debian's packages; the one on PATH may be another.
DEBIAN = "/usr/bin/python3"
if not importlib.util.find_spec("selenium") and os.path.exists(DEBIAN) and not os.environ.get("VIEWER_TEST_AGAIN"):
    os.execve(DEBIAN, [DEBIAN, *sys.argv], {**os.environ, "VIEWER_TEST_AGAIN": "1"})

BROWSER, DRIVER = (shutil.which(name) for name in ("chromium", "chromedriver"))
IS_THERE = importlib.util.find_spec("selenium") and BROWSER and DRIVER
if IS_THERE:
    from selenium import webdriver
    from selenium.common.exceptions import WebDriverException
    from selenium.webdriver.chrome.options import Options
    from selenium.webdriver.chrome.service import Service
    from selenium.webdriver.common.action_chains import ActionChains
    from selenium.webdriver.common.by import By
    from selenium.webdriver.common.keys import Keys
    from selenium.webdriver.support.ui import Select

import fields
from tab_client import Viewer

import assemble

LONGEST = 30
# The usual colours of classes 2, 5, 6, 9 and 17, in maps: brown, dark green, orange, blue and light brown.
GROUND, TREE, BUILDING, WATER, BRIDGE = (0xB5, 0x79, 0x3C), (0x2E, 0x9E, 0x3A), (0xFF, 0x6A, 0x3C), (0x4A, 0x90, 0xFF), (0xE0, 0xC8, 0xC0)
PIXEL = "return Array.from(document.getElementById('picture').getContext('2d').getImageData(arguments[0], arguments[1], 1, 1).data)"


def open_browser():
    options = Options()
    for word in ("--headless=new", "--no-sandbox", "--disable-gpu", "--disable-dev-shm-usage", "--window-size=1280,800", "--force-device-scale-factor=1"):
        options.add_argument(word)
    options.binary_location = BROWSER
    options.set_capability("goog:loggingPrefs", {"browser": "ALL"})
    return webdriver.Chrome(service=Service(DRIVER), options=options)


def setUpModule():
    """One browser serves all tests."""
    Page.driver = open_browser()
    unittest.addModuleCleanup(Page.driver.quit)


class Page(fields.Case):
    """A tab of the browser on the page of a viewer over the survey of four fields."""

    # A viewer that several tests look at, each in a tab of its own; else each test has one of its own.
    shared = None

    @classmethod
    def share(cls):
        folder = tempfile.TemporaryDirectory()
        cls.addClassCleanup(folder.cleanup)
        survey = os.path.join(folder.name, "fields.las")
        with open(survey, "wb") as file:
            file.write(fields.survey_bytes())
        cls.shared = Viewer(survey, folder.name)
        cls.addClassCleanup(cls.shared.end)

    def setUp(self):
        super().setUp()
        self.driver.execute_cdp_cmd("Browser.setDownloadBehavior", {"behavior": "allow", "downloadPath": self.folder})
        self.running = self.shared or self.viewer()
        self.driver.switch_to.new_window("tab")
        self.driver.get(self.running.address)
        self.settled()

    def tearDown(self):
        # Nothing that the page does is an error of its script, or against its own policy.
        severe = [line["message"] for line in self.driver.get_log("browser") if line["level"] == "SEVERE"]
        *old, last = self.driver.window_handles
        for window in old:
            self.driver.switch_to.window(window)
            self.driver.close()
        self.driver.switch_to.window(last)
        self.driver.get("about:blank")
        self.assertEqual([line for line in severe if "WebSocket" not in line and "403" not in line], [])

    def wait(self, what, told):
        until = time.monotonic() + LONGEST
        while time.monotonic() < until:
            try:
                found = what()
            except WebDriverException:
                found = None
            if found:
                return found
            time.sleep(0.05)
        self.fail(f"{told} didn't come")

    def find(self, name):
        return self.driver.find_element(By.ID, name)

    def settled(self, version=None):
        """Waits until the last picture that was asked for is shown in its whole size; gives the version that it shows."""
        script = "return !moving && picture && picture.n === asked && picture.divide === 1 ? picture.version : -1"
        shown = lambda: self.driver.execute_script(f"try {{ {script} }} catch (_) {{ return -1 }}")
        self.wait(lambda: shown() >= 0 and (version is None or shown() == version), "the picture")
        return shown()

    def spot(self, point):
        """Column and row of a point in units by the words that the page shows."""
        return self.on_picture(self.find("words").get_attribute("value"), point)

    @staticmethod
    def on_picture(text, point):
        """Column and row of a point in units, by docs/FORMATS.md."""
        words = text.split()
        w, h, ex, ey, ez, *axes = map(int, words[1:15])
        k, q = int(words[15]), (point[0] - ex, point[1] - ey, point[2] - ez)
        across, along, ahead = (sum(a * b for a, b in zip(axes[at : at + 3], q)) for at in (0, 3, 6))
        if words[0] == "persp":
            return [across * k // ahead + w // 2, along * k // ahead + h // 2]
        return [across // k + w // 2, along // k + h // 2]

    def pixel(self, point):
        """The colour that the page shows where this point falls."""
        return tuple(self.driver.execute_script(PIXEL, *self.spot(point))[:3])

    def wheel(self, point, by):
        """Turns the wheel over a point."""
        column, row = self.spot(point)
        origin = webdriver.common.actions.wheel_input.ScrollOrigin.from_element(
            self.find("picture"), *self.from_middle(column, row))
        ActionChains(self.driver).scroll_from_origin(origin, 0, by).perform()
        self.settled()

    def from_middle(self, column, row):
        size = self.find("picture").size
        return int(column - size["width"] // 2), int(row - size["height"] // 2)

    def drag(self, one, other, shift=False):
        """Draws the mouse from one pixel to another."""
        steps = ActionChains(self.driver)
        if shift:
            steps.key_down(Keys.SHIFT)
        stage = self.find("picture")
        steps.move_to_element_with_offset(stage, *self.from_middle(*one)).click_and_hold()
        steps.move_to_element_with_offset(stage, *self.from_middle(*other)).release()
        if shift:
            steps.key_up(Keys.SHIFT)
        steps.perform()

    def click(self, name):
        self.driver.execute_script("document.getElementById(arguments[0]).click()", name)


class Without(Page):
    """The page over five records in a row, one of them withheld, of a format without RGB."""

    def survey_bytes(self):
        return assemble.plain_file(4, 6)

    def test_what_the_format_lacks_is_greyed_out_with_the_reason(self):
        options = {option.get_attribute("value"): option.is_enabled() for option in Select(self.find("colour")).options}
        self.assertEqual(options, {"class": True, "rgb16": False, "rgb8": False, "intensity": True})
        self.assertEqual(self.find("reasons").text, "RGB: point data record format 6 has none")
        self.wait(lambda: self.find("withheld").is_enabled(), "the count of withheld records")


class Looking(Page):
    """What a tab sees and asks without an edit."""

    @classmethod
    def setUpClass(cls):
        cls.share()

    def test_the_survey_is_seen_from_above_at_once_and_nearer_by_the_wheel(self):
        self.assertEqual(self.settled(), 0)
        for point, colour in (((0, 0, 500), GROUND), ((3950, 0, 900), TREE), ((0, 3950, 700), BUILDING), ((3950, 3950, 100), WATER)):
            self.assertEqual(self.pixel(point), colour, point)
        before = int(self.find("words").get_attribute("value").split()[15]) / int(self.find("words").get_attribute("value").split()[6])
        stayed = self.spot((1000, 3000, 700))
        self.wheel((1000, 3000, 700), -700)
        words = self.find("words").get_attribute("value").split()
        self.assertLess(int(words[15]) / int(words[6]), before / 2)
        # The point under the pointer stays there, but for the rounding of the eye to units.
        self.assertTrue(all(abs(a - b) <= 1 for a, b in zip(self.spot((1000, 3000, 700)), stayed)))
        self.assertEqual(self.pixel((1000, 3000, 700)), BUILDING)

    def test_a_packed_picture_is_shown_as_a_plain_one(self):
        self.click("pack")
        self.wheel((1000, 3000, 700), -300)
        self.assertTrue(self.driver.execute_script("return picture.packed"))
        self.assertEqual((self.pixel((1000, 3000, 700)), self.pixel((2000, 2000, 100))), (BUILDING, WATER))

    def test_the_picture_follows_the_hand(self):
        column, row = self.spot((2000, 2000, 100))
        self.drag((column, row), (column + 100, row - 60))
        self.settled()
        # But for the rounding of the eye to units, which are a fifth of a pixel here.
        moved = self.spot((2000, 2000, 100))
        self.assertTrue(abs(moved[0] - column - 100) <= 1 and abs(moved[1] - row + 60) <= 1, moved)
        self.assertEqual(self.pixel((2000, 2000, 100)), WATER)

    def test_the_pointer_is_told_in_map_coordinates(self):
        column, row = self.spot((1000, 3000, 700))
        ActionChains(self.driver).move_to_element_with_offset(self.find("picture"), *self.from_middle(column, row)).perform()
        words = self.find("words").get_attribute("value").split()
        pixel = int(words[15]) / int(words[6]) / 100
        east, north = (float(text) for text in self.find("where").text.split()[1::2])
        self.assertTrue(abs(east - 10) <= pixel + 0.01 and abs(north - 30) <= pixel + 0.01, self.find("where").text)

    def test_classes_are_switched_off_and_on(self):
        self.assertEqual([row.text for row in self.find("legend").find_elements(By.TAG_NAME, "tr")],
                         ["2 ground 1,600", "5 high vegetation 1,600", "6 building 1,600", "9 water 1,600"])
        self.click("class-5")
        self.settled()
        self.assertIn(" class 0-4,6-255 show", self.find("words").get_attribute("value"))
        self.assertEqual((self.pixel((3950, 0, 900)), self.pixel((0, 0, 500))), ((0, 0, 0), GROUND))
        self.click("class-5")
        self.click("withheld")
        self.settled()
        self.assertEqual((self.pixel((3950, 0, 900)), self.pixel((3950, 3950, 100))), (TREE, (0, 0, 0)))
        self.assertIn("9 water 0", self.find("legend").text)

    def test_colours_background_and_wider_points(self):
        Select(self.find("colour")).select_by_value("rgb16")
        self.settled()
        # Red is the record's row, green 2 and blue 255.
        self.assertEqual((self.pixel((0, 0, 500)), self.pixel((0, 2000, 700))), ((0, 2, 255), (40, 2, 255)))
        Select(self.find("colour")).select_by_value("intensity")
        self.settled()
        self.assertEqual(self.pixel((3950, 0, 900)), (79, 79, 79))
        Select(self.find("colour")).select_by_value("class")
        self.click("usual")
        self.settled()
        # 67 * 5 + 64, 131 * 5 + 128 and 29 * 5 + 192, mod 256
        self.assertEqual(self.pixel((3950, 0, 900)), (143, 15, 81))
        self.driver.execute_script("let b = document.getElementById('background'); b.value = '#102030'; b.dispatchEvent(new Event('input'))")
        column, row = self.spot((0, 0, 500))
        beside = lambda: tuple(self.driver.execute_script(PIXEL, column - 2, row)[:3])
        self.assertEqual(beside(), (0x10, 0x20, 0x30))
        Select(self.find("points")).select_by_visible_text("5")
        # 67 * 2 + 64, 131 * 2 + 128 and 29 * 2 + 192, mod 256
        self.assertEqual(beside(), (198, 134, 250))

    def test_each_button_gives_its_view(self):
        ahead = {"south": "0 16384 0", "west": "16384 0 0", "north": "0 -16384 0", "east": "-16384 0 0"}
        for view, words in ahead.items():
            self.driver.execute_script("look(arguments[0])", view)
            self.settled()
            self.assertEqual(" ".join(self.find("words").get_attribute("value").split()[12:15]), words)
            self.assertTrue(self.find("select").get_attribute("disabled"))
        # Keys are heard also where a button was pressed last.
        self.driver.find_element(By.CSS_SELECTOR, "[data-view=oblique]").click()
        for key, kind in (("7", "persp"), ("6", "ortho"), ("7", "persp"), ("1", "ortho")):
            ActionChains(self.driver).send_keys(key).perform()
            self.settled()
            self.assertEqual(self.find("words").get_attribute("value").split()[0], kind)
        self.assertEqual(self.find("words").get_attribute("value").split()[14][:1], "-")

    def test_view_words_lead_back_to_their_view(self):
        words = lambda: self.find("words").get_attribute("value")
        for view in ("oblique", "flight", "above", "west"):
            self.driver.execute_script("look('above'); look('whole'); look(arguments[0])", view)
            self.settled()
            self.driver.execute_script("camera.at[0] += 3; camera.at[1] -= 2; camera.pixel *= 0.7; moved()")
            self.settled()
            wanted = words()
            self.driver.execute_script("look('north'); look('whole')")
            self.settled()
            self.driver.execute_script("goTo(arguments[0])", wanted)
            self.settled()
            found = words()
            # The eye may slide along its line of sight, and be rounded to another unit.
            shown = [self.on_picture(text, (2000, 2000, 500)) for text in (wanted, found)]
            self.assertTrue(all(abs(a - b) <= 1 for a, b in zip(*shown)), (wanted, found))
            self.assertEqual(wanted.split()[0], found.split()[0])
        self.driver.execute_script("goTo('ortho 1 2')")
        self.assertIn("22 words", self.find("wrong").text)

    def test_a_tab_that_is_loaded_again_goes_on_where_it_was(self):
        self.click("class-5")
        self.wheel((1000, 3000, 700), -700)
        before = self.find("words").get_attribute("value")
        self.driver.refresh()
        self.settled()
        self.assertEqual(self.find("words").get_attribute("value"), before)
        self.assertIn(" class 0-4,6-255 show", before)

    def test_a_refused_line_is_told_in_words(self):
        for line, told in (("count 9 hide", "0 records pass in version 0"), ("count 999 show", "refused: not a line of the grammar")):
            box = self.find("line")
            box.clear()
            box.send_keys(line, Keys.ENTER)
            self.wait(lambda: self.find("told").text == told, told)

    def test_a_wrong_key_is_refused(self):
        self.driver.get(self.running.address[:-1])
        self.assertIn("the key is missing or wrong", self.driver.find_element(By.TAG_NAME, "body").text)


class Working(Page):
    """What changes the survey, the seats or the run."""

    def test_an_edit_in_one_tab_is_seen_in_another_and_saved(self):
        first = self.driver.current_window_handle
        self.driver.switch_to.new_window("window")
        self.driver.get(self.running.address)
        self.settled()
        second = self.driver.current_window_handle
        self.assertEqual(self.find("state").text.split(" · ")[:2], ["seat 2", "version 0"])
        self.driver.switch_to.window(first)
        # From the middle of the water on: 2000 2000 up to 2950 2950 are 20 by 20 records.
        one, other = self.spot((2000, 2000, 100)), self.spot((2975, 2975, 100))
        self.click("select")
        self.drag(one, other)
        self.driver.execute_script("document.getElementById('from').value = '9'; document.getElementById('to').value = '17'")
        self.click("edit")
        self.settled(1)
        self.assertEqual(self.find("said").text, "version 1: 400 records have another class")
        self.assertEqual((self.pixel((2450, 2450, 100)), self.pixel((3500, 3500, 100))), (BRIDGE, WATER))
        self.driver.switch_to.window(second)
        self.wait(lambda: self.find("newer").is_displayed(), "the newer version")
        self.assertEqual(self.pixel((2450, 2450, 100)), WATER)
        # The rectangle begins on the pixel of 20.00, and ends on that of 29.75, both whole.
        told = self.find("newer").text
        self.assertRegex(told, r"Version 1 is there: 400 records changed, in E (19.9|20.0)\d to 29.[78]\d, N (19.9|20.0)\d to 29.[78]\d. This is version 0.")
        self.click("take")
        self.settled(1)
        self.assertEqual((self.pixel((2450, 2450, 100)), self.find("newer").is_displayed()), (BRIDGE, False))
        self.assertIn("version 1: 400 records, seat 1", self.find("edits").text)
        self.wait(lambda: "9 water 1,200\n17 bridge deck 400" in self.find("legend").text, "the counts")
        self.saved()

    def saved(self):
        self.click("save")
        name = self.path("fields-version-1.las")
        wanted = fields.with_class(fields.survey_bytes(), lambda p: 17 if 2000 <= p.x <= 2950 and 2000 <= p.y <= 2950 else None)
        self.wait(lambda: os.path.exists(name) and os.path.getsize(name) == len(wanted), "the file")
        self.assertEqual(self.read("fields-version-1.las"), wanted)

    def test_a_tab_without_a_seat_waits_for_one(self):
        others = [self.seated(self.running) for _ in range(7)]
        self.driver.switch_to.new_window("tab")
        self.driver.get(self.running.address)
        self.wait(lambda: self.find("ended").is_displayed(), "the notice")
        self.assertIn("8 tabs have a seat. This one is number 1 of those that wait", self.find("ended").text)
        others[3].close()
        self.settled()
        self.assertEqual((self.find("ended").is_displayed(), self.find("state").text[:6]), (False, "seat 5"))

    def test_all_tabs_say_that_the_viewer_ended_and_where_the_journal_is(self):
        self.running.process.send_signal(signal.SIGTERM)
        self.wait(lambda: self.find("ended").is_displayed(), "the end")
        self.assertIn(f"The journal of the edits is in {self.running.journal}", self.find("ended").text)
        self.assertEqual(self.running.end(by=None)[0], 0)

    def test_newer_versions_are_shown_at_once_where_that_is_wanted(self):
        self.click("follow")
        other = self.seated(self.running)
        other.say({"ask": "line", "n": "line", "line": "edit 0 0 0 4000 4000 1000 2 6"})
        self.settled(1)
        self.assertEqual(self.pixel((0, 0, 500)), BUILDING)

    def test_all_tabs_say_that_the_program_died_and_where_the_edits_are(self):
        os.kill(self.running.program(), signal.SIGKILL)
        self.wait(lambda: self.find("ended").is_displayed(), "the end")
        told = self.find("ended").text
        self.assertIn("the program was ended by signal 9 (SIGKILL)", told)
        self.assertIn(self.running.journal, told)
        self.assertEqual(self.running.end(by=None)[0], 137)


if __name__ == "__main__":
    if not IS_THERE:
        print("viewer/test_browser.py: skipped: chromium, its driver or selenium isn't installed (Debian: chromium-driver, python3-selenium)")
        sys.exit(0)
    unittest.main()
