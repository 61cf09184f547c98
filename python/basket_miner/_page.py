"""Where the page lies that mines in a browser."""

from pathlib import Path

from ._errors import FileError
from ._explore import Page

_FILE = Path(__file__).parent / "_page_files/basket.html"


def page() -> Page:
    """The page `basket.html`: one file with the program in it, which mines files in a browser.

    Copy it to those who have no Linux and no Python, or open it: it needs a browser with 64-bit
    memory for WebAssembly, and no network. A notebook that shows the path shows the page.

    Raises `FileError` where the package has no page: it came from its sources, and not in a wheel.
    """
    if not _FILE.is_file():
        raise FileError(
            f"there is no page {_FILE}: it is in the wheel that `make wheel` builds"
        )
    return Page(_FILE)
