"""A wheel, and the package as pip installs it, run in a virtual environment without this repository."""

import os
import subprocess
import sys
import zipfile
from importlib import import_module, metadata
from pathlib import Path

import pytest

import basket_miner
from basket_miner import FileError, __version__, _program, page

ROOT = Path(__file__).parents[2]
PIP = ("-m", "pip", "--disable-pip-version-check", "install", "--no-index", "--no-deps")
SCRIPT = """
import basket_miner
from pathlib import Path
print(basket_miner._program.find().relative_to(Path(basket_miner.__file__).parent))
print(basket_miner.sets([["tea", "jam"], ["tea"]], 0.6)["support"].tolist())
print(basket_miner.__version__)
found = basket_miner.rules([["tea", "jam"]], 1, 0.5)
print(basket_miner.explore(found, "rules.html").stat().st_size > 10_000)
from basket_miner import cluster
print(cluster.sets.__name__)
"""


def fresh(folder: Path) -> Path:
    """The Python of a new virtual environment that has the system's packages, as pandas and pip."""
    words = ["-m", "venv", "--system-site-packages", "--without-pip", str(folder)]
    subprocess.run([sys.executable, *words], check=True)
    return folder / "bin/python"


def output_of(*words: str | Path, folder: Path, program: str | None = None) -> str:
    """What a command prints in a folder, where nothing but `BASKET` may lead to the program."""
    environment = {"PATH": "/usr/bin:/bin", "HOME": str(folder)}
    environment |= {} if program is None else {"BASKET": program}
    return subprocess.run(
        [*map(str, words)],
        cwd=folder,
        env=environment,
        stdout=subprocess.PIPE,
        text=True,
        check=True,
    ).stdout


@pytest.fixture(name="wheel", scope="module")
def made_wheel(tmp_path_factory: pytest.TempPathFactory) -> Path:
    folder = tmp_path_factory.mktemp("dist")
    # What a page does is tested beside it.
    shown = folder / "some.html"
    shown.write_text("<title>basket</title>")
    environment = {
        **os.environ,
        "BASKET": str(_program.find()),
        "PAGE": str(shown),
    }
    words = [sys.executable, "tools/wheel.py", str(folder)]
    made = subprocess.run(
        words, cwd=ROOT, env=environment, stdout=subprocess.PIPE, text=True, check=True
    )
    return Path(made.stdout.strip())


def test_a_wheel_has_the_program_and_needs_nothing_of_the_repository(
    wheel: Path, tmp_path: Path
) -> None:
    python = fresh(tmp_path / "fresh")
    output_of(python, *PIP, wheel, folder=tmp_path)
    said = output_of(python, "-c", SCRIPT, folder=tmp_path)
    assert said.splitlines() == ["bin/basket", "[1.0]", __version__, "True", "sets"]
    script = "import basket_miner; print(basket_miner.page().read_text())"
    said = output_of(python, "-c", script, folder=tmp_path)
    assert said == "<title>basket</title>\n"


def test_a_wheel_brings_the_command_which_is_the_program(
    wheel: Path, tmp_path: Path
) -> None:
    python = fresh(tmp_path / "fresh")
    output_of(python, *PIP, wheel, folder=tmp_path)
    command = python.with_name("basket")
    assert output_of(command, "--version", folder=tmp_path) == f"basket {__version__}\n"
    shop = tmp_path / "shop.dat"
    shop.write_text("1 2\n1\n")
    assert output_of(command, "sets", "--min=2", shop, folder=tmp_path) == "1 (2)\n"
    words = [str(command), "sets", "--min=2", "/nowhere"]
    ended = subprocess.run(words, capture_output=True, text=True, check=False)
    assert ended.returncode == 4
    assert ended.stderr.startswith("basket: cannot open /nowhere: ")
    # Packages take a second to be imported, and the command needs none.
    imported = "import sys; sys.argv[1:] = ['help']; import os; os.execv = print"
    script = f"{imported}; exec(open({str(command)!r}).read()); print('pandas' in sys.modules)"
    said = output_of(python, "-c", script, folder=tmp_path).splitlines()
    assert said[0].endswith("basket_miner/bin/basket ['basket', 'help']")
    assert said[1] == "False"


def test_sources_have_no_page_and_say_who_has() -> None:
    with pytest.raises(FileError, match="make wheel"):
        page()


def test_no_folder_hides_the_call_that_says_where_the_page_lies() -> None:
    with pytest.raises(ModuleNotFoundError):
        import_module("basket_miner.page")
    assert basket_miner.page is page


def test_the_tag_of_a_wheel_is_that_of_the_oldest_c_library(wheel: Path) -> None:
    program = _program.find().read_bytes()
    _, _, version = wheel.stem.rpartition("manylinux_")
    major, minor, machine = version.split("_", 2)
    assert machine == "x86_64"
    asked = f"GLIBC_{major}.{minor}\0".encode()
    later = [f"GLIBC_2.{more}\0".encode() for more in range(int(minor) + 1, 99)]
    assert asked in program
    assert not any(symbol in program for symbol in later)
    with zipfile.ZipFile(wheel) as parts:
        assert parts.read("basket_miner/bin/basket") == program


def test_pip_installs_the_package_beside_a_program(tmp_path: Path) -> None:
    python = fresh(tmp_path / "fresh")
    sources = tmp_path / "python"
    words = ["cp", "-r", str(ROOT / "python"), str(sources)]
    subprocess.run(words, check=True)
    output_of(python, *PIP, "--no-build-isolation", sources, folder=tmp_path)
    script = SCRIPT.replace(".relative_to(Path(basket_miner.__file__).parent)", "")
    program = str(_program.find().resolve())
    said = output_of(python, "-c", script, folder=tmp_path, program=program)
    assert said.splitlines() == [program, "[1.0]", __version__, "True", "sets"]
    # A command without a program would hide another that is on the path.
    assert not python.with_name("basket").exists()


def test_the_package_has_the_version_of_the_program(wheel: Path) -> None:
    (found,) = metadata.distributions(name="basket-miner", path=[str(wheel)])
    assert f"basket {__version__}" == _program.run(["--version"]).decode().strip()
    # An installer writes 1.2.0-dev as 1.2.0.dev0.
    assert found.version.replace(".dev0", "-dev") == __version__
