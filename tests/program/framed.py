"""Writes a frame for each payload, which is a word of hex digits, to standard output."""

import sys
from pathlib import Path

sys.path.insert(0, str(Path(__file__).resolve().parents[1] / "model"))

from wire import frame_of  # noqa: E402

sys.stdout.buffer.write(b"".join(frame_of(bytes.fromhex(word)) for word in sys.argv[1:]))
