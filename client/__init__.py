"""The store's client for people: what `chunkfs` is made of. docs/CHUNKFS.md says what each command does."""

import sys
from pathlib import Path

ROOT = Path(__file__).resolve().parent.parent
# There stands what builds the programs.
sys.path.append(str(ROOT / "bench"))
