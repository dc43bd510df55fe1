"""Colours and texts of pictures: on light and dark pages, on a phone, and for people with colour blindness."""

import itertools
import pathlib
import re
import unittest
import xml.etree.ElementTree

from ways import crackd

from crackd import drawing
from crackd.drawing import COLOURS, FONT, POLICY_COLOURS, WIDTH
from crackd.layout import DRAWN, Layout, PartLayout, Piece

DOCUMENTS = pathlib.Path(crackd.__file__).resolve().parents[2] / "docs"
DARK = "@media (prefers-color-scheme: dark)"
# colours that are drawn side by side: curves and bars of the benchmark, policies, and layouts
TOGETHER = [["blue", "green", "pink", "orange", "grey", "red"], POLICY_COLOURS.values(), ["blue", "pale", "brown"]]
TOGETHER.append(["black", *TOGETHER[0][1:]])
# how red, green and blue light appear to everyone, and to people who lack one kind of cone (Machado, Oliveira and
# Fernandes, 2009)
SEEN = [
    [(1, 0, 0), (0, 1, 0), (0, 0, 1)],
    [(0.152, 1.053, -0.205), (0.115, 0.786, 0.099), (-0.004, -0.048, 1.052)],
    [(0.367, 0.861, -0.228), (0.280, 0.673, 0.047), (-0.012, 0.043, 0.969)],
    [(1.256, -0.077, -0.179), (-0.078, 0.931, 0.148), (0.005, 0.691, 0.304)],
]


def light_of(colour):
    """Red, green and blue light of a colour."""
    parts = (int(colour[at : at + 2], 16) / 255 for at in (1, 3, 5))
    return [it / 12.92 if it <= 0.04045 else ((it + 0.055) / 1.055) ** 2.4 for it in parts]


def weighed(light, *weights):
    return sum(share * min(max(it, 0), 1) for share, it in zip(weights, light))


def contrast(one, other):
    dark, bright = sorted(weighed(light_of(it), 0.2126, 0.7152, 0.0722) for it in (one, other))
    return (bright + 0.05) / (dark + 0.05)


def place_of(light):
    """Where light is in the space CIELAB, in which equal distances look equally different."""
    rows = [(0.4339, 0.3762, 0.1899), (0.2126, 0.7152, 0.0722), (0.0177, 0.1095, 0.8728)]
    x, y, z = (max(weighed(light, *it), 1e-9) ** (1 / 3) for it in rows)
    return 116 * y - 16, 500 * (x - y), 200 * (y - z)


def difference(one, other, seen):
    """How different two colours look to someone."""
    lights = [[sum(map(float.__mul__, map(float, row), light_of(it))) for row in seen] for it in (one, other)]
    return sum((a - b) ** 2 for a, b in zip(*map(place_of, lights))) ** 0.5


class Colours(unittest.TestCase):
    def test_texts_and_colours_differ_from_the_page(self):
        for at in (0, 1):
            page = COLOURS["page"][at]
            for name, least in {"text": 7, "faint": 4.5, **dict.fromkeys(itertools.chain(*TOGETHER), 1.5)}.items():
                self.assertGreater(contrast(COLOURS[name][at], page), least, (name, at))

    def test_colours_are_told_apart_also_by_those_who_do_not_see_all(self):
        for names, at, seen in itertools.product(TOGETHER, (0, 1), SEEN):
            for one, other in itertools.combinations(names, 2):
                self.assertGreater(difference(COLOURS[one][at], COLOURS[other][at], seen), 14, (one, other, at))

    def test_a_layout_has_them_on_light_and_dark_pages(self):
        drawn = Layout((PartLayout(0, 1, 1, 0, 0, 9, 8, (Piece(0, 2**64, 1),)),)).svg()
        for styles, at in zip(drawn.partition("</style>")[0].split(DARK), (0, 1)):
            colours = dict(re.findall(r"\.crackd-(\w+)\{fill:(#\w{6})\}", styles))
            self.assertEqual(colours, {name: COLOURS[colour][at] for name, colour in DRAWN.items()})


class Documents(unittest.TestCase):
    """The pictures of the documents."""

    def test_they_have_a_title_both_schemes_and_texts_that_a_phone_shows(self):
        for path in DOCUMENTS.glob("*.svg"):
            root = xml.etree.ElementTree.parse(path).getroot()
            self.assertEqual((path.name, root.get("width"), root.get("font-size")), (path.name, f"{WIDTH}", f"{FONT}"))
            texts = [it.text for it in root.iter() if it.tag.endswith("text")]
            self.assertEqual((root[0].tag[-5:], root[0].text), ("title", texts[0]), path.name)
            light, dark = root[1].text.split(DARK)
            self.assertIn(f".page{{fill:{COLOURS['page'][0]}}}", light.replace(" ", ""))
            self.assertIn(f".page{{fill:{COLOURS['page'][1]}}}", dark.replace(" ", ""))
        self.assertGreaterEqual(FONT * 360 / WIDTH, 11)

    def test_no_text_of_them_leaves_the_picture(self):
        for path in DOCUMENTS.glob("*.svg"):
            for it in xml.etree.ElementTree.parse(path).getroot().iter():
                if it.tag.endswith("text"):
                    # 0.53 of the font size is the width of the widest digit in common typefaces
                    width, at = len(it.text) * 0.53 * FONT, float(it.get("x"))
                    start = at - width * ("start", "middle", "end").index(it.get("text-anchor")) / 2
                    self.assertTrue(0 <= start and start + width <= WIDTH, (path.name, it.text, start, start + width))

    def test_a_key_has_as_many_names_in_a_row_as_there_is_room_for(self):
        lines, height = drawing.key([("a", "", "x" * 20), ("b", "", "y" * 20), ("c", "", "z" * 9)], 100)
        found = re.findall(r'<line class="." x1="([\d.]+)" .* y1="([\d.]+)"', "\n".join(lines))
        places = [tuple(map(float, it)) for it in found]
        self.assertEqual([y for _, y in places], [95, 95, 115])
        self.assertEqual((places[0][0], places[2][0], height), (8, 8, 140))
        self.assertGreater(places[1][0], 8 + 30 + 20 * drawing.LETTER)


if __name__ == "__main__":
    unittest.main()
