"""Recordings of a radio with known symbols, the demodulators beside one another over them, and what came of it."""
