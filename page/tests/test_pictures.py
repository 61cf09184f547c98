# mypy: allow-untyped-calls
"""The picture of rules as a file: PNG and SVG."""

from xml.etree import ElementTree

from selenium import webdriver

SVG = "{http://www.w3.org/2000/svg}"
PICTURES = """
const [done] = arguments;
(async () => {
  const png = await createImageBitmap(await pngOf());
  const made = document.createElement("canvas");
  [made.width, made.height] = [png.width, png.height];
  const seen = made.getContext("2d", { willReadFrequently: true });
  seen.drawImage(png, 0, 0);
  const places = [...order].map((rule) => [xs[rule], ys[rule]]);
  const scale = devicePixelRatio;
  const colours = places.map(([x, y]) => [...seen.getImageData(x * scale, y * scale, 1, 1).data]);
  const paper = [...seen.getImageData(1, 1, 1, 1).data];
  done({ svg: await svgOf().text(), places, colours, paper, shape: [png.width, png.height, canvas.width, canvas.height] });
})();
"""


def test_the_picture_is_saved_with_all_its_marks(example: webdriver.Chrome) -> None:
    found = example.execute_async_script(PICTURES)
    assert found["shape"][:2] == found["shape"][2:] != [0, 0]
    assert found["paper"][3] == 255 and found["paper"] not in found["colours"]
    root = ElementTree.fromstring(found["svg"])
    circles = {(it.get("cx"), it.get("cy")) for it in root.iter(f"{SVG}circle")}
    corners = [it.get("points", "").split()[0] for it in root.iter(f"{SVG}polygon")]
    marks = [(float(x or 0), float(y or 0)) for x, y in circles]
    marks += [(float(it.split(",")[0]), float(it.split(",")[1])) for it in corners]
    # A triangle's first corner is below its middle.
    for x, y in found["places"]:
        assert any(abs(x - one) < 0.6 and -0.6 < other - y < 7 for one, other in marks)
    texts = [it.text for it in root.iter(f"{SVG}text")]
    assert {"support", "confidence", "100%"} <= {*texts}
    assert example.get_log("browser") == []
