"""The calls of calls.table by their words, as tools/calls reads them."""
import pathlib
import sys

ROOT = pathlib.Path(__file__).resolve().parents[2]
sys.path.append(str(ROOT / 'tools'))
from calls_table import calls_of, read_table  # noqa: E402

TABLE = {call.word: call for call in calls_of(read_table(ROOT / 'calls.table')[1])}
