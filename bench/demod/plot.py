"""Draws the frames that each receiver loses over Es/N0, from the JSON of `demod levels --out`.

Usage: plot.py CURVES FILE COMMIT
"""

import json
import sys
import time

import matplotlib

matplotlib.use("Agg")

from matplotlib import pyplot  # noqa: E402

NOTE = "synthetic GOES-R HRIT: 927,000 symbols/s at 2.4 Msps, offset 7 kHz, drift 30 Hz/s, clock 20 ppm, linewidth 1 Hz"
FORMS = {
    "ideal": ("black", ":"),
    "lritdemod": ("tab:blue", "-"),
    "lritdemod, --passes 4": ("tab:cyan", "-"),
    "GNU Radio": ("tab:olive", "--"),
    "GNU Radio, wide": ("tab:green", "--"),
    "SatDump": ("tab:red", "-."),
    "SatDump, tuned": ("tab:orange", "-."),
    "SatDump, whole": ("tab:brown", "-."),
}


def draw(curves: str, path: str, commit: str) -> None:
    with open(curves, encoding="utf-8") as file:
        measured = json.load(file)
    figure, axes = pyplot.subplots(figsize=(8, 4.5), dpi=120)
    for name, points in measured["curves"].items():
        colour, line = FORMS.get(name, ("grey", "-"))
        levels = [level for level, _ in points]
        lost = [100 * (1 - share) for _, share in points]
        axes.plot(levels, lost, line, color=colour, marker="o", markersize=3, label=name)
    axes.set_xlabel("Es/N0, dB")
    axes.set_ylabel(f"frames lost of {measured['frames']}, %")
    axes.set_ylim(-2, 102)
    axes.set_xlim(-1.9, 2.1)
    axes.grid(True, alpha=0.3)
    axes.legend(fontsize=8)
    axes.set_title(NOTE, fontsize=7)
    when = time.strftime("%Y-%m-%d", time.gmtime())
    figure.text(0.99, 0.01, f"bench/demod.sh --plot, {when}, commit {commit}", ha="right", fontsize=6, color="grey")
    figure.tight_layout()
    figure.savefig(path, metadata={"Software": None})


if __name__ == "__main__":
    draw(*sys.argv[1:4])
