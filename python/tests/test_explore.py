# mypy: allow-untyped-calls
"""The page of the small shop's rules, as a browser shows it."""

from typing import Any

import pytest
from selenium import webdriver
from selenium.webdriver.common.action_chains import ActionChains
from selenium.webdriver.common.by import By
from selenium.webdriver.common.keys import Keys

from browser import at, rows, until


def header(browser: webdriver.Chrome, name: str) -> Any:
    return browser.find_element(By.XPATH, f"//th[button='{name}']")


def click_mark(browser: webdriver.Chrome, support: float, confidence: float) -> None:
    canvas = at(browser, "marks")
    x, y = browser.execute_script(f"return placeOf({support}, {confidence})")
    middle = canvas.size["width"] / 2, canvas.size["height"] / 2
    actions = ActionChains(browser).scroll_to_element(canvas)
    actions.move_to_element_with_offset(
        canvas, round(x - middle[0]), round(y - middle[1])
    )
    actions.click().perform()


def test_the_table_has_the_rules_the_strongest_first(shop: webdriver.Chrome) -> None:
    assert at(shop, "summary").text == "27 rules of 15 baskets"
    assert at(shop, "status").text == "27 rules of 27, page 1 of 1"
    found = rows(shop)
    assert len(found) == 27
    assert ["tea", "milk", "3", "20.0%", "100%", "1.25"] in found
    # Seven of the ten baskets with bread have milk, and twelve of all fifteen.
    assert ["bread", "milk", "7", "46.7%", "70.0%", "0.875"] in found
    lifts = [float(row[5]) for row in found]
    assert lifts == sorted(lifts, reverse=True)


@pytest.mark.parametrize("name", ["Count", "Support", "Confidence", "Lift"])
def test_a_header_sorts_and_says_so(shop: webdriver.Chrome, name: str) -> None:
    place = ["Count", "Support", "Confidence", "Lift"].index(name) + 2
    cell = header(shop, name)
    ways = (
        ["ascending", "descending"] if name == "Lift" else ["descending", "ascending"]
    )
    for way in ways:
        cell.find_element(By.TAG_NAME, "button").send_keys(Keys.ENTER)
        assert cell.get_attribute("aria-sort") == way
        assert len(shop.find_elements(By.CSS_SELECTOR, "th[aria-sort]")) == 1
        values = [float(row[place].rstrip("%")) for row in rows(shop)]
        assert values == sorted(values, reverse=way == "descending")


def test_sides_sort_by_their_texts(shop: webdriver.Chrome) -> None:
    header(shop, "Consequents").find_element(By.TAG_NAME, "button").click()
    names = [row[1] for row in rows(shop)]
    assert names == sorted(names) and names[0] == "apples"


def test_filters_leave_the_rules_that_meet_all(shop: webdriver.Chrome) -> None:
    whole = rows(shop)
    at(shop, "left").send_keys("MIL")
    kept = [row for row in whole if "milk" in row[0]]
    until(shop, f"{len(kept)} rules of 27, page 1 of 1")
    assert rows(shop) == kept
    at(shop, "right").send_keys("butter")
    at(shop, "confidence").send_keys("40")
    kept = [
        row for row in kept if "butter" in row[1] and float(row[4].rstrip("%")) >= 40
    ]
    until(shop, f"{len(kept)} rules of 27, page 1 of 1")
    assert rows(shop) == kept
    kept = [row for row in kept if float(row[5]) >= 1.2]
    at(shop, "lift").send_keys("1.2")
    until(shop, f"{len(kept)} rule of 27, page 1 of 1")
    assert rows(shop) == kept
    shop.find_element(By.CSS_SELECTOR, "button[type=reset]").click()
    until(shop, "27 rules of 27, page 1 of 1")
    at(shop, "support").send_keys("40")
    until(shop, "2 rules of 27, page 1 of 1")
    assert {row[0] for row in rows(shop)} == {"bread", "milk"}
    at(shop, "most").send_keys("45")
    until(shop, "0 rules of 27, page 1 of 1")


@pytest.mark.parametrize(
    ("name", "text", "is_meant"),
    [
        ("either", "tea", lambda left, right: "tea" in left | right),
        ("either", '"te"', lambda left, right: False),
        ("either", '"jam", mil', lambda left, right: {"jam", "milk"} <= left | right),
        ("left", '"bread", "milk"', lambda left, right: {"bread", "milk"} <= left),
        (
            "without",
            "milk, jam",
            lambda left, right: not {"milk", "jam"} & (left | right),
        ),
    ],
)
def test_a_text_asks_for_items_by_parts_or_in_quotes(
    shop: webdriver.Chrome, name: str, text: str, is_meant: Any
) -> None:
    sides = [(set(row[0].split(", ")), set(row[1].split(", "))) for row in rows(shop)]
    kept = [both for both in sides if is_meant(*both)]
    at(shop, name).send_keys(text)
    until(
        shop, f"{len(kept)} {'rule' if len(kept) == 1 else 'rules'} of 27, page 1 of 1"
    )
    assert [
        (set(row[0].split(", ")), set(row[1].split(", "))) for row in rows(shop)
    ] == kept


def test_a_click_on_a_mark_shows_its_rules(shop: webdriver.Chrome) -> None:
    click_mark(shop, 3 / 15, 1.0)
    until(shop, "1 rule of 27, by the selection, page 1 of 1")
    assert rows(shop) == [["tea", "milk", "3", "20.0%", "100%", "1.25"]]
    at(shop, "unselect").click()
    until(shop, "27 rules of 27, page 1 of 1")
    assert not at(shop, "unselect").is_enabled()


def test_the_middle_of_the_colours_is_a_lift_of_1(shop: webdriver.Chrome) -> None:
    # The strongest rules have a lift of 15/7, at which the colours end.
    lifts = [0.01, 7 / 15, (7 / 15) ** 0.5, 0.999, 1, 1.001, (15 / 7) ** 0.5, 15 / 7, 9]
    shades = shop.execute_script("return arguments[0].map(shadeOf)", lifts)
    # Shades below the middle are triangles.
    assert shades == [0, 0, 9, 31, 32, 33, 55, 64, 64]
    assert [at(shop, name).text for name in ("low", "one", "high")] == [
        "0.600",
        "1",
        "2.14",
    ]


def test_a_rectangle_selects_the_rules_in_it(shop: webdriver.Chrome) -> None:
    canvas = at(shop, "marks")
    low, high = shop.execute_script("return [placeOf(.4, .5), placeOf(.48, .8)]")
    middle = canvas.size["width"] / 2, canvas.size["height"] / 2
    actions = ActionChains(shop).move_to_element_with_offset(
        canvas, round(low[0] - middle[0]), round(low[1] - middle[1])
    )
    actions.click_and_hold().move_by_offset(
        round(high[0] - low[0]), round(high[1] - low[1])
    )
    actions.release().perform()
    until(shop, "2 rules of 27, by the selection, page 1 of 1")
    assert {(row[0], row[1]) for row in rows(shop)} == {
        ("bread", "milk"),
        ("milk", "bread"),
    }


def test_the_keyboard_goes_from_mark_to_mark(shop: webdriver.Chrome) -> None:
    canvas = at(shop, "marks")
    canvas.send_keys(Keys.ARROW_RIGHT)
    # The mark of least support and, there, of least confidence.
    told = shop.execute_script("return element('told').textContent")
    assert told.startswith("support 13.3%, confidence 28.6%")
    assert at(shop, "tip").text == told
    canvas.send_keys(Keys.ENTER)
    assert {row[4] for row in rows(shop)} == {"28.6%"}
    canvas.send_keys(Keys.ESCAPE)
    until(shop, "27 rules of 27, page 1 of 1")


def test_details_are_the_counts_and_the_exact_fractions(
    shop: webdriver.Chrome,
) -> None:
    button = shop.find_element(By.XPATH, "//tr[td[2]='milk']//button[.='bread']")
    assert button.get_attribute("aria-label") == "bread → milk, details"
    button.click()
    assert button.get_attribute("aria-expanded") == "true"
    shown = shop.find_element(By.TAG_NAME, "dl")
    names = [name.text for name in shown.find_elements(By.TAG_NAME, "dt")]
    values = [value.text for value in shown.find_elements(By.TAG_NAME, "dd")]
    assert dict(zip(names, values)) == {
        "baskets": "15",
        "with the antecedents": "10",
        "with the consequents": "12",
        "with both": "7",
        "support": "7/15",
        "confidence": "7/10",
        "lift": "7/8",
    }
    button.click()
    assert shop.find_elements(By.TAG_NAME, "dl") == []


def test_everything_that_is_used_has_a_name(shop: webdriver.Chrome) -> None:
    used = shop.find_elements(By.CSS_SELECTOR, "input, button, canvas, table")
    assert len(used) > 40
    assert [
        one.get_attribute("outerHTML")
        for one in used
        if one.is_displayed() and not one.accessible_name
    ] == []
