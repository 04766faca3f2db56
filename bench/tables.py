"""Brings the modules of the tables of cases, which write expressions and requests, into reach of the scripts beside this one."""
import os
import sys

HERE = os.path.dirname(os.path.dirname(os.path.abspath(__file__)))
sys.path.insert(0, os.path.join(HERE, "crates", "vx_cases", "tables"))
