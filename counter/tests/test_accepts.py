"""JSON comes if a client asks for it, and the text in every other case."""

import time
import unittest

from weighbridge_counter.accepts import wants_json

LONG = 8000  # characters: a head may have no more
TABLE = (
    ((), False),
    (("",), False),
    (("*/*",), False),
    (("text/plain",), False),
    (("application/json",), True),
    (("Application/JSON",), True),
    (("application/*",), True),
    (("text/*",), False),
    (("text/*, application/*",), False),
    (("application/json, */*",), True),
    (("*/*, application/json",), True),
    (("application/json, text/plain",), False),
    (("application/json, text/plain;q=0.9",), True),
    (("application/json;q=0.9, text/plain",), False),
    (("application/json;q=0.9, text/plain;q=0.8",), True),
    (("application/json;q=0.9, */*;q=0.8",), True),
    (("application/json;q=0.5, */*",), False),
    (("application/json;q=0.5, text/*;q=0.5",), True),
    (("application/json;q=0",), False),
    (("application/json;q=0.000, text/plain;q=0",), False),
    (("application/json;q=0, */*",), False),
    (("application/json;q=0.001",), True),
    (("application/*;q=0.2, application/json;q=0.9, text/plain;q=0.5",), True),
    (("application/*, application/json;q=0.1, text/plain;q=0.5",), False),
    (("text/*;q=0.9, text/plain;q=0.1, application/json;q=0.5",), True),
    (("*/*;q=0.9, text/*;q=0.1",), True),
    (("text/html, application/json",), True),
    # what libraries send without a wish of their own: axios, Java and jQuery
    (("application/json, text/plain, */*",), False),
    (("text/html, image/gif, image/jpeg, *; q=.2, */*; q=.2",), False),
    (("application/json, text/javascript, */*; q=0.01",), True),
    (("text/html", "application/json"), True),
    (("text/plain", "application/json;q=0.3"), False),
    (("image/png",), False),
    (("application/problem+json",), False),
    (("application/json-seq",), False),
    (("application/json; charset=utf-8",), True),
    (('application/json ; charset="UTF-8" ; q=0.7',), True),
    (("application/json;charset=latin-1",), False),
    (("application/json;version=2",), False),
    (("application/json;q=0.5;version=2",), True),
    (("application/json;Q=0.5, text/plain;q=0.4",), True),
    (("application/json;q=2",), False),
    (("application/json;q=-1",), False),
    (("application/json;q=0.1234",), False),
    (("application/json;q=nan",), False),
    (("application/json;q=inf",), False),
    (("application/json;q=٠",), False),
    (("application/json;q",), False),
    (("application/json;q=",), False),
    (("application/json;",), True),
    (("application /json",), False),
    (("application/json x",), False),
    (("json",), False),
    (("/",), False),
    (("*/json",), False),
    (("*",), False),
    ((",,application/json,,",), True),
    (('text/plain;a="application/json", image/png',), False),
    (('text/html;a="b,application/json,c"',), False),
    (('text/html;a="\\",application/json,\\""',), False),
    (("application/json\x00",), False),
    (("applicatiоn/json",), False),
)


class Accept(unittest.TestCase):
    def test_each_row(self) -> None:
        for fields, wanted in TABLE:
            with self.subTest(fields):
                self.assertEqual(wanted, wants_json(fields))

    def test_a_long_field_takes_no_longer_than_its_length(self) -> None:
        for begin in ("", "application/json", 'a/b;c="'):
            for piece in ('"', '"\\', "\\", "; ", ";c=", " ", "\t;", ",", "a/b;c=d", ';c="d"', "/"):
                began = time.process_time()
                wants_json([begin + piece * (LONG // len(piece)) + "\0"])
                self.assertLess(time.process_time() - began, 0.1, (begin, piece))


if __name__ == "__main__":
    unittest.main()
