#!/usr/bin/env python3
"""Tests of bundle.py that need no modules: the scripts of the page join to one each, and no markup leaves the script
that lends them."""

from __future__ import annotations

import tempfile
import unittest
from pathlib import Path
from unittest import mock

import bundle


class Scripts(unittest.TestCase):
    def test_those_of_the_page_join(self) -> None:
        for name in ("page.mjs", "worker.mjs"):
            text = bundle.one_script(name)
            self.assertNotRegex(text, r"(?m)^(import|export)\b")

    def test_a_name_that_two_files_declare_is_refused(self) -> None:
        with tempfile.TemporaryDirectory() as name:
            folder = Path(name)
            (folder / "low.mjs").write_text("export const MOST = 1;\n")
            (folder / "top.mjs").write_text("import { MOST } from './low.mjs';\nfunction MOST() {}\n")
            with mock.patch.object(bundle, "PAGE", folder), self.assertRaisesRegex(bundle.BundleError, "MOST"):
                bundle.one_script("top.mjs")

    def test_a_form_that_is_not_known_is_refused(self) -> None:
        with tempfile.TemporaryDirectory() as name:
            folder = Path(name)
            (folder / "top.mjs").write_text("import * as all from './low.mjs';\n")
            with mock.patch.object(bundle, "PAGE", folder), self.assertRaises(bundle.BundleError):
                bundle.one_script("top.mjs")


class Pages(unittest.TestCase):
    def test_a_page_has_one_policy_and_its_scripts(self) -> None:
        with tempfile.TemporaryDirectory() as name:
            (Path(name) / "lr_run.wasm").write_bytes(b"\0asm")
            text = bundle.page(Path(name), "1 </script><b>")
        self.assertEqual(text.count("Content-Security-Policy"), 1)
        self.assertEqual(text.count("</script>"), 2)
        self.assertNotIn("</script><b>", text)


if __name__ == "__main__":
    unittest.main()
