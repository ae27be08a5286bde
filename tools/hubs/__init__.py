"""The parts of tools/hubs-test. They use the client of this clone, its tests' etcds, and parts of tools/team."""
import os
import sys

TOOLS = os.path.dirname(os.path.dirname(os.path.abspath(__file__)))
CLIENT = os.path.join(os.path.dirname(TOOLS), "clients", "python")
sys.path[:0] = [CLIENT, TOOLS]
