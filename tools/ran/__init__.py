"""Parts of tools/history-test and tools/hostile-test."""
import os
import sys

ROOT = os.path.dirname(os.path.dirname(os.path.dirname(os.path.abspath(__file__))))
CLIENT = os.path.join(ROOT, "clients", "python")
sys.path.insert(0, CLIENT)
