#!/usr/bin/python3
"""Runs kbfeed-collect as on another day (UTC).

collect_on.py DAY ARGUMENT.."""
import datetime
import pathlib
import sys

sys.dont_write_bytecode = True
TOOLS = pathlib.Path(__file__).resolve().parent.parent.parent / "tools"
sys.path[:0] = [str(TOOLS / "collect"), str(TOOLS / "convert")]

from kbfeed_collect import clock, command  # noqa: E402

moment = datetime.datetime.fromisoformat(f"{sys.argv.pop(1)}T03:00+00:00")
clock.now = lambda: moment
sys.exit(command.main())
