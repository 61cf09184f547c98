# mypy: allow-untyped-calls
"""That all can use the page: with keys, on a phone, by a screen reader, with weak eyes."""

import pytest
from selenium import webdriver
from selenium.webdriver.common.by import By
from selenium.webdriver.common.keys import Keys

from browser import at

from .use import settled

# What is smaller than 24 pixels. A box that is ticked is as large as its label.
SMALL = """
for (const one of document.querySelectorAll("details")) one.open = true;
const used = [...document.querySelectorAll("button, input:not(#file), select, textarea, summary")];
return used.filter((one) => one.checkVisibility()).flatMap((one) => {
  const { width, height } = (one.type === "checkbox" ? one.closest("label") : one).getBoundingClientRect();
  return Math.min(width, height) < 24 ? [[one.id || one.outerHTML, width, height]] : [];
});
"""
# The least contrast between the edges of fields and what is beside them, by WCAG's formula.
CONTRAST = """
const style = getComputedStyle(document.documentElement);
const luminance = (name) => {
  const parts = style.getPropertyValue(name).match(/[0-9a-f]{2}/g).map((part) => parseInt(part, 16) / 255);
  const [red, green, blue] = parts.map((part) => (part <= 0.04045 ? part / 12.92 : ((part + 0.055) / 1.055) ** 2.4));
  return 0.2126 * red + 0.7152 * green + 0.0722 * blue + 0.05;
};
const edge = luminance("--edge");
return Math.min(...["--paper", "--raised"].map(luminance).map((side) => Math.max(side / edge, edge / side)));
"""


def test_everything_is_reached_by_the_tabulator(example: webdriver.Chrome) -> None:
    example.execute_script("document.body.tabIndex = -1; document.body.focus()")
    reached = []
    for _ in range(40):
        example.switch_to.active_element.send_keys(Keys.TAB)
        reached.append(example.switch_to.active_element.get_attribute("id"))
    wanted = "choose example ask least minimum confidence-least save-report picture marks save-shown copy-link"
    places = [reached.index(name) for name in wanted.split()]
    assert places == sorted(places)


@pytest.mark.parametrize("scheme", ["light", "dark"])
def test_a_phone_shows_all_in_its_width(shown: webdriver.Chrome, scheme: str) -> None:
    media = {"features": [{"name": "prefers-color-scheme", "value": scheme}]}
    shown.execute_cdp_cmd("Emulation.setEmulatedMedia", media)
    metrics = {"width": 375, "height": 700, "deviceScaleFactor": 2, "mobile": True}
    shown.execute_cdp_cmd("Emulation.setDeviceMetricsOverride", metrics)
    try:
        script = "return document.documentElement.scrollWidth <= innerWidth"
        assert shown.execute_script(script)
        at(shown, "example").click()
        settled(shown)
        shown.execute_script(
            "for (const one of document.querySelectorAll('details')) one.open = true"
        )
        assert shown.execute_script(script)
    finally:
        shown.execute_cdp_cmd("Emulation.clearDeviceMetricsOverride", {})


def test_everything_that_is_used_has_a_name(example: webdriver.Chrome) -> None:
    example.execute_script(
        "for (const one of document.querySelectorAll('details')) one.open = true"
    )
    used = example.find_elements(
        By.CSS_SELECTOR, "input, button, select, canvas, table"
    )
    shown = [one for one in used if one.is_displayed()]
    assert len(shown) > 30
    assert [
        one.get_attribute("outerHTML") for one in shown if not one.accessible_name
    ] == []
    assert example.get_log("browser") == []


def test_all_that_is_used_is_large_enough(example: webdriver.Chrome) -> None:
    assert example.execute_script(SMALL) == []


@pytest.mark.parametrize("scheme", ["light", "dark"])
def test_edges_of_fields_are_seen(shown: webdriver.Chrome, scheme: str) -> None:
    media = {"features": [{"name": "prefers-color-scheme", "value": scheme}]}
    shown.execute_cdp_cmd("Emulation.setEmulatedMedia", media)
    assert shown.execute_script(CONTRAST) >= 3
    edges = "const style = getComputedStyle(element('ask')); return style.borderColor"
    edge = shown.execute_script(edges)
    script = "document.body.style.color = 'var(--edge)'; return getComputedStyle(document.body).color"
    assert edge == shown.execute_script(script)


def test_a_screen_reader_is_told_answers_and_rows(shown: webdriver.Chrome) -> None:
    # A region that is shown with its first text is not read out.
    script = "return element('answered').closest('[hidden]')"
    assert shown.execute_script(script) is None
    at(shown, "example").click()
    settled(shown)
    shown.find_element(By.CSS_SELECTOR, "tbody button").click()
    assert len(shown.find_elements(By.CSS_SELECTOR, "tr.details")) == 1
    assert shown.find_elements(By.CSS_SELECTOR, "tr:not([role]), td:not([role])") == []
