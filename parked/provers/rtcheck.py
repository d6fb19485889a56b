#!/usr/bin/env python3
"""rtcheck.py VERB ..: rt with each crate's stamp computed once (kit 13b goes over the files below once a path). In the crate's folder."""
import importlib.machinery, os, sys, types
sys.path.insert(0, os.path.dirname(os.path.abspath(__file__)))
P = "/opt/rattle/bin/rt"
rt = types.ModuleType("rt"); rt.__file__ = P
importlib.machinery.SourceFileLoader("rt", P).exec_module(rt)
import gate
gate.memo(rt.rtlib.Crate)
sys.exit(rt.main(sys.argv[1:]))
