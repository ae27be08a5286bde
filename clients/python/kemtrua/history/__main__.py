"""The process that keeps a hub's history, as its hub begins it (`apart.py`)."""
import os
import sys

sys.path.insert(0, os.path.dirname(os.path.dirname(os.path.dirname(os.path.abspath(__file__)))))
from kemtrua.history.process import main  # noqa: E402

if __name__ == "__main__":
    main()
