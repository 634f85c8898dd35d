"""No definition of the crates takes a number from a constant of the code, which would follow the code wherever it goes."""
import glob
import os
import unittest

from helpers import TOP


class Definitions(unittest.TestCase):
    """The files of specs/."""

    def test_limits_are_numbers_of_their_own(self):
        files = sorted(glob.glob(os.path.join(TOP, "crates", "*", "specs", "**", "*.antt"), recursive=True))
        self.assertGreater(len(files), 100)
        for file in files:
            with self.subTest(file=os.path.relpath(file, TOP)), open(file, encoding="utf-8") as lines:
                self.assertNotIn(".TheConstants", lines.read())


if __name__ == "__main__":
    unittest.main()
