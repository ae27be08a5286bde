"""The parts of tools/team-test. They use the client of this clone."""
import os
import sys

CLIENT = os.path.join(os.path.dirname(os.path.dirname(os.path.dirname(os.path.abspath(__file__)))), "clients", "python")
sys.path[:0] = [CLIENT]
