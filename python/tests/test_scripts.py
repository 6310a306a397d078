"""Scripts give by the methods of Python the same bytes, answers and refusals as by `curspan run`, and the same picture as by `curspan paint`. What
Python tells beside the calls is what the oracle has."""
import os
import pathlib
import random
import subprocess
import unittest

from replaying import Replay
from trial.scripts import script_of

ROOT = pathlib.Path(__file__).resolve().parent.parent.parent
PROGRAM = os.environ.get('CURSPAN_PROGRAM', str(ROOT / 'crates/curspan/out/curspan'))
COUNT, SEED = int(os.environ.get('CURSPAN_COUNT', '200')), int(os.environ.get('CURSPAN_SEED', '1'))
EXAMPLES = {path: (40, 100) for path in sorted((ROOT / 'examples').glob('*.script'))}


def run(job, lines, columns, script):
    done = subprocess.run([PROGRAM, job, '--lines', str(lines), '--cols', str(columns)], input=script, capture_output=True, check=False)
    return done.stdout, done.stderr.decode(), done.returncode


@unittest.skipUnless(os.access(PROGRAM, os.X_OK), f'there is no program {PROGRAM}')
class Scripts(unittest.TestCase):
    def compare(self, lines, columns, script, chance):
        replay = Replay(lines, columns, script, chance)
        out, log, status = run('run', lines, columns, script)
        self.assertEqual(log, replay.log)
        self.assertEqual(replay.wanted, replay.asked)
        self.assertEqual(status, replay.status)
        self.assertEqual(out, replay.out)
        if status != 2:
            picture, _, _ = run('paint', lines, columns, script)
            self.assertEqual(picture.decode(), f'{replay.screen}\n')

    def test_by_chance(self):
        for seed in range(SEED, SEED + COUNT):
            with self.subTest(seed=seed):
                self.compare(*script_of(random.Random(f'script {seed}')), random.Random(f'python {seed}'))

    def test_examples(self):
        for path, (lines, columns) in EXAMPLES.items():
            with self.subTest(script=path.name):
                self.compare(lines, columns, path.read_bytes(), random.Random(path.name))


if __name__ == '__main__':
    unittest.main()
