# mypy: allow-untyped-calls
"""What the page says in sentences: rules, heads, and what to change where nothing is listed."""

from fractions import Fraction

from selenium import webdriver
from selenium.webdriver.common.action_chains import ActionChains
from selenium.webdriver.common.by import By
from selenium.webdriver.common.keys import Keys

from browser import at, rows
from program_tests.inputs import dense, fimi

from .use import choose, figures, give, settled

# Of 1,000 baskets 115 have cream and milk, 68 of these butter too, and 51 in all others: 1000 * 68 / (115 * 51).
CREAM = ["cream,milk,butter"] * 68 + ["cream,milk"] * 47 + ["tea"] * 702 + ["jam"] * 100
CREAM += ["butter,cream"] * 20 + ["butter,milk"] * 31 + ["milk"] * 16 + ["cream"] * 16


def spoken(browser: webdriver.Chrome) -> str:
    return str(at(browser, "top").text)


def test_the_example_has_the_rules_that_are_promised(shown: webdriver.Chrome) -> None:
    lines = at(shown, "wins").find_elements(By.TAG_NAME, "li")
    promised = [line.text for line in lines]
    at(shown, "example").click()
    assert settled(shown).startswith("17 rules")
    script = "return [...order].map((rule) => { const one = made('p'); addSentence(rule, one); return one.textContent; })"
    assert len(promised) == 3 and {*promised} <= {*shown.execute_script(script)}


def test_rules_and_itemsets_are_said(shown: webdriver.Chrome) -> None:
    give(shown, "\n".join(CREAM).encode() + b"\n")
    choose(shown, "least", "60")
    choose(shown, "confidence-least", "59")
    lift = Fraction(68 * 1000, 115 * 119)
    said = f"Of 115 baskets with cream and milk, 68 also have butter: 59.1%, {float(lift):.2f} times as often as in all baskets."
    row = [["cream", "milk"] in [sorted(it[0].split(", "))] for it in rows(shown)]
    shown.find_elements(By.CSS_SELECTOR, "tbody button")[row.index(True)].click()
    found = shown.find_element(By.CSS_SELECTOR, "tr.details p").text
    assert found in (said, said.replace("cream and milk", "milk and cream"))
    shown.find_elements(By.CSS_SELECTOR, "tbody button")[row.index(True)].click()
    choose(shown, "ask", "sets")
    assert spoken(shown) == "702 of 1,000 baskets have tea: 70.2%."


def test_a_point_that_is_chosen_is_said(shown: webdriver.Chrome) -> None:
    give(shown, b"a,b\n" * 3 + b"a,c\n" + b"c\n" * 4)
    choose(shown, "least", "1")
    first = "Of 3 baskets with b, 3 also have a: 100%, 2.00 times as often as in all baskets."
    assert spoken(shown) == first
    at(shown, "marks").send_keys(Keys.HOME, Keys.ENTER)
    said = "Of 4 baskets with a, 1 also has c: 25.0%, 0.400 times as often as in all baskets."
    choose(shown, "confidence-least", "0")
    at(shown, "marks").send_keys(Keys.HOME, Keys.ARROW_RIGHT, Keys.ENTER)
    told = shown.execute_script("return element('told').textContent")
    assert spoken(shown) == told == said
    at(shown, "marks").send_keys(Keys.ESCAPE)
    assert spoken(shown) == first


def test_heads_say_what_they_mean(shown: webdriver.Chrome) -> None:
    give(shown, b"a,b\n" * 3 + b"c\n")
    head = shown.find_element(By.CSS_SELECTOR, "th[data-key=lift] button")
    described = head.get_attribute("aria-describedby")
    meaning = at(shown, described)
    assert not meaning.is_displayed()
    ActionChains(shown).move_to_element(head).perform()
    assert meaning.is_displayed()
    assert meaning.text.startswith("How many times as often the consequents are")
    ActionChains(shown).move_to_element(at(shown, "answered")).perform()
    assert not meaning.is_displayed()
    shown.execute_script("arguments[0].focus()", head)
    assert meaning.is_displayed()
    head.send_keys(Keys.ESCAPE)
    assert not meaning.is_displayed()
    heads = shown.find_elements(By.CSS_SELECTOR, "th button")
    texts = [
        at(shown, it.get_attribute("aria-describedby")).get_attribute("textContent")
        for it in heads
    ]
    assert len({*texts}) == len(texts) > 5 and all(texts)


def test_where_nothing_is_listed_a_button_helps(shown: webdriver.Chrome) -> None:
    # 4 of 10 with a have b: no confidence of 50%; and no two items are in five baskets.
    give(shown, b"a,b\n" * 4 + b"a\n" * 6 + b"b\n" * 6)
    choose(shown, "confidence-least", "50")
    choose(shown, "least", "3")
    assert rows(shown) == []
    assert (
        at(shown, "none-said").text
        == "No rule in at least 3 baskets has a confidence of 50% or more."
    )
    for wanted in (20, 5, 0):
        if wanted == 20:
            assert at(shown, "remedy").text == "Ask for a confidence of 20%"
            at(shown, "remedy").click()
            assert figures(settled(shown))[0] == 2
            assert at(shown, "none-said").text == ""
            choose(shown, "least", "5")
        else:
            assert at(shown, "remedy").text == f"Ask for a confidence of {wanted}%"
            at(shown, "remedy").click()
            settled(shown)
    assert (
        at(shown, "none-said").text == "No two items are together in 5 baskets or more."
    )
    at(shown, "remedy").click()
    settled(shown)
    assert at(shown, "least").get_attribute("value") == "2"
    assert len(rows(shown)) == 2
    choose(shown, "ask", "sets")
    choose(shown, "least", "16")
    assert at(shown, "remedy").text == "Ask for those in at least 10 baskets"
    at(shown, "remedy").click()
    settled(shown)
    assert [row[:3] for row in rows(shown)] == [["a", "1", "10"], ["b", "1", "10"]]


def test_filters_that_hide_all_are_cleared_by_a_button(shown: webdriver.Chrome) -> None:
    give(shown, b"a,b\n" * 4 + b"c\n")
    shown.execute_script("element('either').value = 'zzz'; update()")
    assert at(shown, "none-said").text == "None of the 2 rules passes the filters."
    at(shown, "remedy").click()
    assert at(shown, "status").text.startswith("2 rules of 2")


def test_of_too_many_itemsets_a_button_raises_the_minimum(
    shown: webdriver.Chrome,
) -> None:
    give(shown, fimi(dense()), "dense.dat")
    choose(shown, "ask", "sets")
    said = choose(shown, "least", "1")
    assert said.startswith("There are more than 200,000 itemsets. Raise the minimum.")
    at(shown, "answered").find_element(By.TAG_NAME, "button").click()
    settled(shown)
    assert at(shown, "least").get_attribute("value") == "2"
