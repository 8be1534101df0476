#!/usr/bin/env python3
"""lagoon plot: the pictures' points worked out again from their axes, bands, refusals, profiles, tables, and bad options.

    python3 tests/test_plot.py
"""

import csv
import unittest
import xml.etree.ElementTree as xml

from toolcase import (CHANNEL, ONE_SIDED, ROOT, RUN, TIDE, breaks, command, equal, folder, holds, interrupted, known, plain_run, refuses, without_calls)

import lagoon
from package import chart, plot, sessiontext, svg

SVG = "{http://www.w3.org/2000/svg}"
CONCENTRATION, TOTAL, RATES = "Concentration q after each step", "Total of all masses", "In-mass and out-mass of each step"


def picture(*arguments, data):
    status, out, said = command("plot", *arguments, data=data)
    equal((status, said), (0, ""), f"{arguments}")
    panels = [panel for panel in xml.fromstring(out).iter(f"{SVG}g") if panel.get("class") == "panel"]
    return {panel.find(f"{SVG}title").text: panel for panel in panels}, out.decode()


SHOWN = {"kg/m³": 1000, "t": 10 ** 6, "kg": 1000}         # of axes: in units of the tide, grams and grams in a cubic metre


def heights(panel):
    """What a height of the panel means, from the labels of its axis; of small panels those of the first row."""
    labels = [(float(text.text.replace(",", "")), float(text.get("y")) - 4) for text in panel.iter(f"{SVG}text")
              if text.get("text-anchor") == "end" and float(text.get("x")) < chart.LEFT]
    labels = labels[:len({label for label, _ in labels})]
    power = {"thousand": 10 ** 9, "millions": 10 ** 6, "thousands": 10 ** 3}
    unit = next(text.text for text in panel.iter(f"{SVG}text") if "rotate" in text.get("transform", ""))
    (low, low_y), (high, high_y) = labels[0], labels[-1]
    return lambda y: power.get(unit.split()[0], 1) * SHOWN.get(unit, 1) * (low + (y - low_y) * (high - low) / (high_y - low_y))


def drawn(panel, kind="line", shape="polyline"):
    """The values of each line of a panel, worked out again from its points and the labels of its axis."""
    value, lines = heights(panel), {}
    for group in panel.iter(f"{SVG}g"):
        if group.get("class") == kind:
            points = [point.split(",") for point in group.find(f"{SVG}{shape}").get("points").split()]
            lines[group.find(f"{SVG}title").text] = [value(float(y)) for _, y in points]
    return lines


def near(actual, expected, within, what):
    equal(len(actual), len(expected), f"{what}, number of points")
    for got, wanted in zip(actual, expected):
        holds(abs(got - wanted) <= within, f"{what}: {got:.1f} near {wanted}")


def marks(panel):
    return [path.find(f"{SVG}title").text for path in panel.iter(f"{SVG}path") if path.get("class") == "refused"]


def lagoon_of(cells, steps, head=""):
    """A channel of so many cells, of which the sea takes one after another."""
    lines = [head + "mesh", *(f"cell {cell} volume 100" for cell in range(cells)), "face 0 from 0 to rim"]
    lines += [f"face {face} from {face - 1} to {face} share 128 reach 100" for face in range(1, cells)] + [f"face {cells} from {cells - 1} to rim", "field"]
    water = ["face 0 flux -50 outside 1000", *(f"face {face} flux 50" for face in range(1, cells + 1))]
    return "\n".join(lines + [line for step in steps for line in ["step", *([f"time {step}"] if step else []), *water]]) + "\n"


def axis(panel):
    """The labels under a panel, and the words below them."""
    texts = [text for text in panel.iter(f"{SVG}text") if text.get("text-anchor") == "middle" and "rotate" not in text.get("transform", "")]
    return [text.text for text in texts]


class Plot(unittest.TestCase):
    def test_the_channel(self):
        for data in (CHANNEL.encode(), sessiontext.pack(CHANNEL)[0], sessiontext.pack(CHANNEL.replace("mesh", "mesh wide", 1))[0]):
            panels, _ = picture("--run", RUN, data=data)
            cells = drawn(panels[CONCENTRATION])
            equal(list(cells), ["cell 0", "cell 1", "cell 2"], "cells drawn")
            near(cells["cell 0"], [1000, 1000, 1000], 1, "cell 0")
            near(cells["cell 1"], [0, 499, 811], 1, "cell 1")
            near(cells["cell 2"], [0, 0, 187], 1, "cell 2")
            near(drawn(panels[TOTAL])["total"], [100000, 150000, 200000], 100, "total")
            near(drawn(panels[RATES])["in"], [50000, 50000] * 2, 100, "in-mass, a stair for each step")
            near(drawn(panels[RATES])["out"], [0, 0] * 2, 100, "out-mass")

    def test_the_tide(self):
        """The stored picture is that of its session: 49 steps, of which the 25th is refused."""
        panels, out = picture("--cells", "0-7", "--title", "A lagoon between sea and river: two tides", data=TIDE.encode())
        equal(out == (ROOT / "docs" / "tide.svg").read_text(), True, "docs/tide.svg is what lagoon plot makes with these options")
        equal([len(values) for values in drawn(panels[CONCENTRATION]).values()], [50] * 8, "points of the cells")
        total = drawn(panels[TOTAL])["total"]
        equal(total[24], total[25], "the total before and after the refused step")
        equal(marks(panels[TOTAL]), ["step 25 refused: cell 0: 300 enters, 299 leaves (cause 9)", "1 refused"], "crosses")
        holds("kg/m³" in out and "in t, rounded: total 184.4 = first total 245.0 + in 211.6 − out 272.2" in out
              and "1 step refused by cause 9: a cell whose inflow and outflow differ" in out, "unit and cause")
        panels, _ = picture("--every", "20", data=TIDE.encode())
        equal([len(values) for values in drawn(panels[CONCENTRATION]).values()], [4] * 8, "points of every 20th step and the last")

    def test_bands(self):
        """A long session is drawn as bands whose edges are the least and greatest of each column of pixels; refusals are ticks."""
        start = TIDE.index("step times 10")
        data, _ = sessiontext.pack(TIDE[:start] + TIDE[start:] * 40)
        panels, out = picture("--cells", "0,3", data=data)
        lines = [line.split() for line in lagoon.run(data).splitlines() if line[0] != "B"]
        totals = []
        for line in lines:
            totals.append(totals[-1] if line[1] == "R" else int(line[3]))
        columns = {}
        for step, total in enumerate(totals):
            columns.setdefault(min(int(step * chart.PLOT / (len(totals) - 1)), chart.PLOT - 1), []).append(total)
        edges = [totals[0], *(max(columns[column]) for column in sorted(columns)), totals[-1],
                 *(min(columns[column]) for column in sorted(columns, reverse=True))]
        near(drawn(panels[TOTAL], "band", "polygon")["total"], edges, max(totals) / 500, "the band of the total")
        equal(drawn(panels[TOTAL]), {}, "no line beside the band")
        mean = drawn(panels[TOTAL], "band", "polyline")["total"]
        near([mean[0], mean[-1]], [totals[0], totals[-1]], max(totals) / 500, "the line begins and ends at the first and last value")
        near(mean[1:-1], [sum(rows) / len(rows) for _, rows in sorted(columns.items())], max(totals) / 500,
             "and between them it is the mean of each column")
        holds("band: least to greatest of the 4 steps of a pixel; line: their mean; both begin and end at the first and last value" in out,
              "the picture says what band and line are")
        equal(len(marks(panels[TOTAL])), 41, "a tick for each refused step, and one in the legend")
        equal(marks(panels[TOTAL])[0], "step 25 refused: cell 0: 300 enters, 299 leaves (cause 9)", "its cause")
        holds("40 refused" in out and len(out) < 200_000, f"{len(out)} bytes")

    def test_words_stay_in_the_picture(self):
        """The budget of a long session and all that is said above a panel take as many lines as they need."""
        start = TIDE.index("step times 10")
        text = TIDE[:start].replace("unit mass g\n", "unit mass 1000 g, dried and weighed at the station\n") + TIDE[start:] * 40
        _, out = picture("--cells", "3,4", data=text.encode())
        words = [(float(text.get("x")), int(text.get("font-size")), text.text) for text in xml.fromstring(out).iter(f"{SVG}text")
                 if text.get("text-anchor") == "start"]
        for left, size, said in words:
            holds(left + len(said) * size / 2 <= chart.WIDTH, f"{said} is cut off")
        foot = " ".join(said for _, _, said in words).partition("total ")[2]
        holds("weighed at the station)" in foot, foot)

    def test_profile_and_table(self):
        with folder() as made:
            panels, _ = picture("--profile", "0,2,last", "--csv", f"{made}/q.csv", "--cells", "1",
                                data=TIDE.replace("mesh", "name cell 1 Bay\nmesh", 1).encode())
            with open(f"{made}/q.csv") as file:
                rows = list(csv.reader(file))
        profiles = drawn(panels["Concentration q over the cells"])
        equal(list(profiles), ["after step 0", "after step 2", "after step 49"], "steps drawn")
        near(profiles["after step 0"], [q for q in (35000, 30000, 20000, 10000, 5000, 0, 0, 0) for _ in range(2)], 200, "the first field")
        equal(list(drawn(panels[CONCENTRATION])), ["1 Bay"], "the cell's name")
        equal(rows[0], ["step", "time", "q cell 1 (Bay)", "total", "in", "out", "released", "cause"], "heading of the table")
        equal([rows[1][:4], rows[-1][0], rows[26][7], len(rows)], [["0", "", "30000", "245000000"], "49", "9", 51], "its rows")
        lines = [line.split() for line in lagoon.run(sessiontext.pack(TIDE)[0]).splitlines() if line[0] != "B"]
        equal([row[4:6] + [row[3], row[6]] for row in rows[1:] if not row[7]], [line[1:] for line in lines if line[1] != "R"],
              "in, out, total and released")

    def test_outfalls(self):
        """Released mass has a line of its own, and a place in the budget below the panels."""
        session = CHANNEL + "step\nface 0 flux -50 outside 1000\nface 1 flux 50\nface 2 flux 50\nface 3 flux 50\ncell 1 release 20000\n"
        panels, out = picture("--run", RUN, data=session.encode())
        rates = drawn(panels["In-mass, out-mass and released mass of each step"])
        near(rates["released"][::2], [0, 0, 20000], 100, "released mass")
        near(rates["out"][1::2], [0, 0, 9350], 100, "out-mass")
        near(drawn(panels[TOTAL])["total"], [100000, 150000, 200000, 260650], 200, "total")
        holds("total 260,650 = first total 100,000 + in 150,000 + released 20,000 − out 9,350" in out, "the budget")
        holds("released" not in picture(data=CHANNEL.encode())[1], "a session without releases says nothing of them")

    def test_plain(self):
        """Plain upwind beside the corrected step: lines, profiles, budget and table; where nothing differs it has no line."""
        with folder() as made:
            panels, out = picture("--plain", "--cells", "0,3", "--profile", "last", "--csv", f"{made}/both.csv", "--run", RUN, data=TIDE.encode())
            with open(f"{made}/both.csv") as file:
                rows = list(csv.reader(file))
        lines = [line.split() for line in plain_run(sessiontext.pack(TIDE)[0]).splitlines() if line[0] != "B"]
        heads = ["q cell 0", "q cell 3", "total", "in", "out", "released", "cause"]
        equal(rows[0], ["step", "time", *heads, *(f"plain {head}" for head in heads)], "heading of the table")
        equal([[row[12], row[13], row[11], row[14], row[15]] for row in rows[1:]],
              [["0", "0", row[11], "0", "9"] if line[1] == "R" else [*line[1:], ""] for row, line in zip(rows[1:], lines, strict=True)],
              "in, out, total, released and cause by plain upwind")
        cells = drawn(panels[CONCENTRATION])
        equal(list(cells), ["cell 0", "cell 0, plain", "cell 3", "cell 3, plain"], "lines")
        near(cells["cell 3"], [int(row[3]) for row in rows[1:]], 200, "cell 3")
        near(cells["cell 3, plain"], [int(row[10]) for row in rows[1:]], 200, "cell 3 by plain upwind")
        equal(list(drawn(panels["Concentration q over the cells"])), ["after step 49", "after step 49, plain"], "profiles")
        near(drawn(panels[TOTAL])["total, plain"], [int(row[11]) for row in rows[1:]], 10 ** 6, "total by plain upwind")
        equal(list(drawn(panels[RATES])), ["in", "out", "out, plain"], "what enters is the same")
        holds("plain upwind: total 197,065,520 = first total 245,000,000 + in 211,568,000 − out 259,502,480" in out, "the budget")
        equal(len(marks(panels[TOTAL])), 2, "one refusal, by both, and the legend's cross")
        equal(picture("--cells", "0,3", data=TIDE.encode())[1].count("plain"), 0, "without --plain nothing is said of it")

    def test_refused_by_one_alone(self):
        panels, out = picture("--plain", data=(CHANNEL.replace("step times 2", "step") + ONE_SIDED).encode())
        told = marks(panels[TOTAL])
        holds(told[0].startswith("step 2 refused: cell 0: mass 100,099 and"), told)
        holds(told[1].startswith("step 3 refused by plain upwind: cell 1: mass 50,000 and"), told)
        equal(told[2], "1 refused, plain 1", "the legend")
        holds("plain upwind: 1 step refused by cause 18" in out, "its cause below")

    def test_cells(self):
        """By name, by number and by range; without a word the sixteen that changed most, each in a small panel."""
        head = "name cell 4 Marsh\nname cell 7 East Channel, low\n"
        panels, _ = picture("--cells", '7,Marsh,0-1', data=lagoon_of(30, [""] * 4, head).encode())
        equal(list(drawn(panels[CONCENTRATION])), ["7 East Channel, low", "4 Marsh", "cell 0", "cell 1"], "in the order asked for")
        panels, _ = picture("--cells", 'Marsh,"East Channel, low"', data=lagoon_of(30, [""] * 4, head).encode())
        equal(list(drawn(panels[CONCENTRATION])), ["4 Marsh", "7 East Channel, low"], "a name with a comma in it")
        panels, out = picture(data=lagoon_of(30, [""] * 40, head).encode())
        small = drawn(panels[CONCENTRATION])
        equal(list(small), [plot.named(sessiontext.Labels(), cell) if cell not in (4, 7) else {4: "4 Marsh",
                                                                                               7: "7 East Channel, low"}[cell] for cell in range(16)],
              "the sea reaches the first cells")
        near(small["cell 0"][:10], [0, 500, 750, 875, 937, 968, 984, 992, 996, 998], 130, "cell 0 in its small panel")
        holds("the 16 of 30 cells whose q changed most" in out, "and the picture says so")
        panels, out = picture(data=lagoon_of(30, [""]).encode())
        equal(list(drawn(panels[CONCENTRATION])), ["cell 0"], "cells that did not change are left out")
        holds("the 1 of 30 cells whose q changed most" in out, "and the picture says that too")
        equal(len({line.get("stroke-dasharray")
                   for line in picture("--cells", "0-7", data=lagoon_of(30, [""] * 4).encode())[0][CONCENTRATION].iter(f"{SVG}polyline")}),
              8, "eight lines have eight dashes")
        refuses("at most 16 cells", "plot", "--cells", "0-16", data=lagoon_of(30, [""]).encode())

    def test_time(self):
        """Dates, hours and days under the panels; a step's stair stands between its beginning and its end."""
        days = [f"2026-02-{day:02}" for day in range(26, 29)] + ["2026-03-01", "2026-03-02"]
        for steps, head, words in ((days, "", [*(word for day in ("26 Feb", "27 Feb", "28 Feb", "1 Mar", "2 Mar") for word in (day, "12:00")), "3 Mar",
                                               "26 Feb 2026 to 3 Mar 2026"]),
                                   (["2026-06-01T22:00", "2026-06-01T23:00", "2026-06-02T00:00Z"], "",
                                    ["22:00", "22:30", "23:00", "23:30", "2 Jun", "00:30", "01:00", "1 Jun 2026 to 2 Jun 2026"]),
                                   (["0 h", "6 h", "12 h"], "", ["0", "2", "4", "6", "8", "10", "12", "14", "16", "18", "hours"]),
                                   ([""] * 4, "unit step 1 d\n", ["0", "0.5", "1", "1.5", "2", "2.5", "3", "3.5", "4", "days"]),
                                   (["7", "8", ""], "", ["7", "7.5", "8"]),
                                   (["1990-01-01", "2030-01-01"], "", ["1990", "2000", "2010", "2020", "2030", "2040"]),
                                   (["mon", "tue"], "", ["0", "1", "2", "step"]), (["2 h", "1 h"], "", ["0", "1", "2", "step"])):
            panels, out = picture("--csv", "/dev/null", data=lagoon_of(3, steps, head).encode())
            found = axis(panels[TOTAL])
            equal(found[:len(words)], words, f"the axis of {steps} {head}")
            stairs = next(panels[RATES].iter(f"{SVG}polyline")).get("points").split()
            near([float(stairs[0].split(",")[0]), float(stairs[-1].split(",")[0])], [chart.LEFT, chart.LEFT + chart.PLOT], 0.1,
                 "the stairs from end to end")
        with folder() as made:
            picture("--csv", f"{made}/q.csv", data=lagoon_of(3, days).encode())
            with open(f"{made}/q.csv") as file:
                equal([row[1] for row in csv.reader(file)], ["time", *days, "2026-03-03T00:00"], "times of the table: when the next step begins")

    def test_a_cut_axis(self):
        """An axis that does not begin at 0 has a mark, and says so."""
        panels, out = picture(data=TIDE.encode())
        cuts = {title: any(path.get("class") == "cut" for path in panel.iter(f"{SVG}path")) for title, panel in panels.items()}
        equal(cuts, {CONCENTRATION: False, TOTAL: True, RATES: False}, "marks")
        equal(out.count("the axis does not begin at 0"), 1, "words")

    def test_titles(self):
        """Any title makes a picture that can be read as XML: long, with control characters, with signs of XML, empty."""
        for title in ("long " * 80, "wide" * 100, "\x1b[31mred\x07", "<b>&amp;\"'", "", "塩" * 90, "\udcff"):
            panels, out = picture("--title", title, data=CHANNEL.encode())
            lines = [text.text or "" for text in xml.fromstring(out).iter(f"{SVG}text") if text.get("font-size") == "18"]
            holds(1 <= len(lines) <= 2 and all(svg.wide(line) <= chart.LINE_WIDE for line in lines), f"{title[:20]!r}: {lines}")

    def test_an_engine_that_differs(self):
        data, _ = sessiontext.pack(CHANNEL)
        with folder() as made:
            program = f"{made}/run"
            with open(program, "w") as file:
                file.write("#!/bin/sh\ncat > /dev/null\necho 0 0 0 100000 0\n")
            (ROOT / program).chmod(0o755)
            refuses("line 2 of", "plot", "--run", program, data=data)

    def test_no_picture(self):
        data, _ = sessiontext.pack(CHANNEL)
        for arguments, given, words in (([], data[:20],
                                         "lagoon plot: the mesh is refused: the input ends in this mesh record, which needs 31 bytes and has 20 (cause 11)"),
                                        ([], data[:31] + b"\x10" + data[32:], "lagoon plot: the field is refused: kind 0001 in binary"),
                                        ([], b"mesh\ncell 0 volume x\n", "lagoon plot: <stdin>:2:15: a volume should be"),
                                        ([], CHANNEL.replace("cell 1 mass 0", "cell 1 mass 100000100").encode(),
                                         "the field is refused: cell 1: mass 100,000,100"),
                                        (["--cells", "3"], data, "lagoon plot: --cells: '3' is no cell of the mesh (0 to 2) nor the name of one"),
                                        (["--cells", "0-99999999999"], data, "'0-99999999999' is no cell of the mesh"),
                                        (["--cells", "0-3"], data, "--cells: the mesh has cells 0 to 2, not '0-3'"),
                                        (["--cells", "9" * 5000], data, "--cells: '999"),
                                        (["--cells", ""], data, "--cells: '' is no cell"), (["--cells", "2-1"], data, "'2-1' is no range"),
                                        (["--cells", "0,x"], data, "lagoon plot: --cells: 'x' is no cell"),
                                        (["--profile", "3"], data, "there is no step 3, the last is 2"),
                                        (["--profile", "x"], data, "'x' is neither a step nor 'last'"), (["--profile", ""], data, "'' is neither a step"),
                                        (["--csv", "-"], data, "cannot both be standard output")):
            refuses(words, "plot", *arguments, data=given)
        for value in ("0", "x", "9" * 5000):
            refuses("a whole number from 1", "plot", "--every", value, data=data, status=2)
        equal(picture(data=data[:45])[0].keys(), {CONCENTRATION, TOTAL}, "a session without steps")

    def test_the_command(self):
        known("plot")
        breaks("plot", ROOT / "examples" / "channel.txt")
        interrupted("plot")
        channel = ROOT / "examples" / "channel.txt"
        refuses("is read", "plot", channel, "-o", channel)
        refuses("nowhere: No such file", "plot", "nowhere")
        without_calls("plot", data=CHANNEL.encode())


if __name__ == "__main__":
    unittest.main()
