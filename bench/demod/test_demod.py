"""The recordings and the scores of the benchmark, by numbers that are known otherwise; trials/demod.sh runs them."""

import sys
import tempfile
import unittest
from dataclasses import replace
from pathlib import Path

import numpy

from . import channel, frames, receivers, score
from .channel import Link

DRAW = numpy.random.default_rng(5)
SENT = DRAW.choice([-100, 100], 50_000).astype(numpy.int8)


class Frames(unittest.TestCase):
    def test_codewords_are_those_of_the_reference(self) -> None:
        made = frames.drawn_frames(2, 1)
        block = frames.cadus_of(made)[0, 4:] ^ numpy.array(frames.blocks.SEQUENCE, numpy.uint8)
        for k in range(frames.DEPTH):
            word = [int(byte) for byte in block[k :: frames.DEPTH]]
            self.assertEqual(word, frames.blocks.encoded(word[: frames.WORD]))

    def test_a_frame_has_its_symbols(self) -> None:
        stream = frames.stream(3, 1)
        self.assertEqual((len(stream.frames), len(stream.symbols)), (3, 3 * 2 * 8 * frames.CADU))


class Channel(unittest.TestCase):
    def test_a_symbol_has_the_energy_of_its_samples(self) -> None:
        for link in (Link(), Link(rate=1.5e6, roll_off=0.5), Link(symbols=293883.0)):
            signal = channel.clean(SENT, link, numpy.random.default_rng(1))
            self.assertAlmostEqual(float((abs(signal) ** 2).mean()), 1.0, delta=0.02)

    def test_the_noise_is_that_of_es_n0(self) -> None:
        link = replace(Link(), es_n0=3.0)
        power = 2 * channel.sigma_of(link) ** 2 / (link.rate / link.symbols)
        self.assertAlmostEqual(-10 * float(numpy.log10(power)), 3.0, places=6)

    def test_forms(self) -> None:
        samples = numpy.array([0, 1 + 1j, -1 - 1j, 100], numpy.complex64)
        for form, size in (("u8", 2), ("s8", 2), ("s16", 4), ("f32", 8)):
            self.assertEqual(len(channel.written(samples, replace(Link(), form=form))), size * len(samples))

    def test_noise_alone(self) -> None:
        first, second = (numpy.frombuffer(it, numpy.uint8) for it in channel.noise(Link(rate=1e5, level=20.0), 2))
        self.assertEqual((len(first), len(second)), (200_000, 200_000))
        self.assertAlmostEqual(float(first.mean()), 127.5, delta=0.3)
        self.assertAlmostEqual(float(first.std()), 20.0, delta=0.3)
        self.assertTrue((first != second).any())


class Receivers(unittest.TestCase):
    def test_what_a_pipe_gives_is_counted(self) -> None:
        with tempfile.TemporaryDirectory() as folder:
            program = Path(folder) / "program"
            text = f"#!{sys.executable}\nimport sys\nsys.stdout.write('x' * len(sys.stdin.buffer.read()))\n"
            program.write_text(text)
            program.chmod(0o755)
            tools = receivers.Tools(program, None, None, False)
            symbols, memory = receivers.over_pipe(tools, Link(), iter([b"ab", b"c" * 100_000]))
        self.assertEqual(symbols, 100_002)
        self.assertTrue(1_000_000 < memory < 1_000_000_000, memory)


class Scores(unittest.TestCase):
    def test_ideal_symbols_have_their_es_n0(self) -> None:
        for level in (-1.0, 3.0):
            found = score.scored(SENT, channel.ideal(SENT, level, 32, numpy.random.default_rng(2)))
            assert found is not None
            self.assertAlmostEqual(found.es_n0, level, delta=0.1)
            self.assertEqual((found.slips, found.flips), (0, 0))

    def test_slips_and_flips(self) -> None:
        soft = channel.ideal(SENT, 3.0, 32, numpy.random.default_rng(2))
        slipped = numpy.concatenate([soft[:20_000], -soft[20_003:]])
        found = score.scored(SENT, slipped)
        assert found is not None
        self.assertEqual((found.slips, found.flips), (1, 1))

    def test_lost_symbols(self) -> None:
        soft = channel.ideal(SENT, 3.0, 32, numpy.random.default_rng(2))[3000:]
        self.assertEqual(score.lost_symbols(SENT, soft), 3000)
        self.assertIsNone(score.lost_symbols(SENT, DRAW.integers(-40, 40, 30_000).astype(numpy.int8)))


if __name__ == "__main__":
    unittest.main()
