"""Tests whose rows are told one by one."""
import unittest


class Rows(unittest.TestCase):
    """Tests of rows, each of which counts."""

    def check(self, results):
        """Each result says why a row isn't as it is wanted, or is None."""
        for number, why in enumerate(results, 1):
            with self.subTest(row=number):
                if why is not None:
                    self.fail(why)

    def leave_out(self, reasons):
        """Says what isn't tried."""
        for why in reasons:
            with self.subTest(why):
                self.skipTest(why)
