"""The tests: classes of unittest in test_*.py, how they are run in runner/, what they start and ask in drivers/, what they want in models/."""
from pathlib import Path

TOP = Path(__file__).resolve().parent.parent
