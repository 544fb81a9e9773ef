"""`arrays` and `frame`, where numpy and pandas are installed and where they are not."""

from __future__ import annotations

import importlib.util
import sys
import unittest
from unittest import mock

import rtcm2rinex
from support import EXAMPLES, Case

HAS = {name: importlib.util.find_spec(name) is not None for name in ("numpy", "pandas")}


class Tables(Case):
    def test_what_is_not_installed_is_named(self) -> None:
        for name, call in (("numpy", rtcm2rinex.arrays), ("pandas", rtcm2rinex.frame)):
            with mock.patch.dict(sys.modules, {name: None}), self.assertRaises(ModuleNotFoundError) as raised:
                call(EXAMPLES / "session.rnx")
            self.assertEqual(str(raised.exception), f"rtcm2rinex.{call.__name__} needs {name}, which is not installed here")

    @unittest.skipUnless(HAS["numpy"], "numpy is not installed")
    def test_arrays(self) -> None:
        columns = rtcm2rinex.arrays(EXAMPLES / "session.rnx")
        self.assertEqual({name: (it.dtype.str[1:], it.shape) for name, it in columns.items()}, {"time": ("M8[ms]", (184,)),
            "satellite": ("U3", (184,)), "code": ("U2", (184,)), "range": ("f8", (184,)), "phase": ("f8", (184,)),
            "strength": ("f8", (184,)), "loss_of_lock": ("b1", (184,)), "half_cycle": ("b1", (184,)),
            "doppler": ("f8", (184,))})
        self.assertEqual((columns["loss_of_lock"].sum(), columns["half_cycle"].sum()), (2, 3))
        self.assertEqual((str(columns["time"][0]), columns["range"][0]), ("2024-05-17T12:00:00.000", 21085472.062))

    @unittest.skipUnless(HAS["pandas"], "pandas is not installed")
    def test_frame(self) -> None:
        table = rtcm2rinex.frame(EXAMPLES / "session.rnx")
        self.assertEqual((len(table), list(table.columns)), (184, list(rtcm2rinex.Observation._fields)))
        self.assertEqual(table[table.satellite == "G21"].strength.max(), 30.75)
