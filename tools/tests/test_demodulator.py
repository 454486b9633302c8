"""What a demodulator says of its signal: in `state`, for Prometheus, and `which` of recordings of complex samples."""

import importlib.util
import json
import os
import unittest
from typing import Any

from .support import TOP, Case, needs_program, read, station, write
from .test_station import Watched, aged

DEMODULATOR = os.environ.get("LRITDEMOD")
LINE: dict[str, Any] = {
    "seconds": 12.0,
    "level_db": -20.04,
    "clipped_percent": 0.13,
    "locked": True,
    "es_n0_db": 3.26,
    "carrier_hz": -7012.4,
    "clock_ppm": 19.96,
}
NONE: dict[str, Any] = {**LINE, "locked": False, "es_n0_db": None, "carrier_hz": None, "clock_ppm": None}


class Signals(Watched):
    def status(self, *lines: Any) -> None:
        write("watched/demodulator", b"".join(json.dumps(it).encode() + b"\n" for it in lines))

    def test_the_last_line_is_told(self) -> None:
        self.status(NONE, LINE)
        self.looks(0, "Es/N0 3.3 dB, carrier -7012 Hz", "--full", "100")
        self.status(LINE, {**LINE, "clipped_percent": 12.0})
        self.looks(0, "Es/N0 3.3 dB, carrier -7012 Hz, 12.0 % clipped", "--full", "100")

    def test_no_signal(self) -> None:
        self.status(LINE, NONE)
        self.looks(1, "the demodulator finds no signal")

    def test_no_word(self) -> None:
        self.status(LINE)
        aged("watched/demodulator", 600)
        self.looks(1, "no demodulator report for 10 minutes")

    def test_lines_that_say_nothing(self) -> None:
        texts = [b"", b"\n", b"{\n", b"[]\n", b"null\n", b'{"locked": true}\n', b"\xff\n", b"[" * 100_000 + b"\n"]
        numbers = ("3", None, True, 1e300, float("nan"))
        texts += [json.dumps({**LINE, "es_n0_db": it}).encode() + b"\n" for it in numbers]
        for text in texts[:-1]:
            write("watched/demodulator", text)
            self.assertNotIn("demodulator", self.looks(0, "2 of 3662 frames lost", "--full", "100"))

    def test_half_a_line_is_left(self) -> None:
        self.status(LINE)
        with open("watched/demodulator", "ab") as it:
            it.write(b'{"seconds": 13')
        self.looks(0, "Es/N0 3.3 dB", "--full", "100")

    def test_prometheus(self) -> None:
        self.status(LINE)
        self.call("state", "--prometheus", "told", "watched")
        text = read("told").decode()
        names = ("demodulator_locked", "carrier_offset_hertz", "clock_error_ppm", "level_decibels", "clipped_percent")
        for line in names:
            self.assertIn(f'\ngomtasil_{line}{{folder="watched"}} ', text)
        self.assertIn('gomtasil_es_n0_decibels{folder="watched"} 3.26\n', text)


def trial() -> Any:
    """The sending half of the trial of the demodulator."""
    place = os.path.join(TOP, "trials", "demod.py")
    about = importlib.util.spec_from_file_location("demod_trial", place)
    assert about and about.loader
    module = importlib.util.module_from_spec(about)
    about.loader.exec_module(module)
    return module


@needs_program
@unittest.skipUnless(DEMODULATOR, "LRITDEMOD names no built program")
class Recordings(Case):
    def setUp(self) -> None:
        super().setUp()
        self.trial = trial()
        station("sent.shelf", "trial", "1", "7", "0")
        sent = station("sent.shelf", "transmit", "0", "6", "0", "--line", "nrz-m", "--g2", "plain")
        self.samples = self.trial.samples_of(self.trial.levels_of(sent))

    def lines(self, name: str, data: bytes, status: int = 0) -> Any:
        write(name, data)
        out, _ = self.call("which", name, status=status)
        return out.splitlines()

    def test_wav_files(self) -> None:
        for is_long in (False, True):
            data = self.trial.wave("s16", self.trial.written(self.samples, "s16"), is_long)
            *_, line, last = self.lines("it.wav", self.of_927(data))
            want = "  lritdemod --downlink goes-hrit < it.wav | lritstation my.shelf receive --line nrz-m --g2 plain"
            self.assertEqual((line, last), (want, "locks"))

    def of_927(self, data: Any) -> Any:
        """The head's rate, so that the symbols have that of GOES-R HRIT."""
        rate = round(927_000 * self.trial.EACH)
        return data.replace(self.trial.RATE.to_bytes(4, "little"), rate.to_bytes(4, "little"), 1)

    def test_a_rate_in_the_name(self) -> None:
        for form, rate in (("u8", 927_000), ("s16", 927_000), ("f32", 927_000)):
            name = f"goes_{round(rate * self.trial.EACH)}sps.raw"
            *_, line, last = self.lines(name, self.trial.written(self.samples, form))
            rate_words = f"lritdemod --rate {round(rate * self.trial.EACH)}"
            self.assertIn(f"{rate_words} --format {form} --downlink goes-hrit", line)
            self.assertEqual(last, "locks")

    def test_metadata(self) -> None:
        stated = {"core:datatype": "cu8", "core:sample_rate": 927_000 * self.trial.EACH}
        write("it.sigmf-meta", json.dumps({"global": stated}).encode())
        *_, line, last = self.lines("it.sigmf-data", self.trial.written(self.samples, "u8"))
        self.assertIn("lritdemod --sigmf it.sigmf-meta --downlink goes-hrit < it.sigmf-data", line)
        self.assertEqual(last, "locks")

    def test_noise(self) -> None:
        draws = self.trial.random.Random(4)
        self.assertIn("no frame lock", self.lines("it_2400000sps.raw", draws.randbytes(400_000), 1))
