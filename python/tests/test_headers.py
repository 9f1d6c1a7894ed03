"""Headers, as engineers write them and as the program does."""
import unittest

from tcam_razor import headers
from tcam_razor.headers import Header


class Headers(unittest.TestCase):
    def test_addresses_have_points_or_are_numbers(self):
        for words in ("10.20.10.5 10.20.1.10 4000 445 tcp", "169085445 169083146 4000 445 6", "010.020.010.005 10.20.1.10 4000 445 6"):
            self.assertEqual(headers.header(words.split()), Header(169085445, 169083146, 4000, 445, 6))

    def test_a_header_is_shown_with_points_and_the_name_of_its_protocol(self):
        self.assertEqual(Header(167772161, 0, 1, 65535, 17).shown, "10.0.0.1:1 > 0.0.0.0:65535 udp")

    def test_a_header_is_written_as_a_line_of_a_trace(self):
        self.assertEqual(str(Header(167772161, 0, 1, 65535, 17)), "167772161 0 1 65535 17")

    def test_a_protocol_without_a_name_is_a_number(self):
        self.assertEqual(headers.protocol_name(253), "protocol 253")

    def test_values_that_are_too_large_are_refused(self):
        for words in ("4294967296 0 0 0 0", "0 4294967296 0 0 0", "0 0 65536 0 0", "0 0 0 65536 0", "0 0 0 0 256", "-1 0 0 0 0"):
            with self.assertRaises(ValueError):
                headers.header(words.split())

    def test_a_name_that_no_protocol_has_is_refused(self):
        with self.assertRaises(OSError):
            headers.header("0 0 0 0 nothing".split())
