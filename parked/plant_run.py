#!/usr/bin/env python3
"""rt plant with more seconds for a batch, and with variants that have a doc line."""
import importlib.machinery, sys, types, os
P="/opt/rattle/bin/rt-plant"
m=types.ModuleType("rt-plant"); m.__file__=P
importlib.machinery.SourceFileLoader("rt-plant",P).exec_module(m)
m.SECONDS=int(os.environ.get("PLANT_SECONDS","1500"))
m.BATCH=int(os.environ.get("PLANT_BATCH","60"))
b=m.bodies
was=b.without_attributes
def without(words):
    words=list(words)
    while words and (words[0].startswith("///") or words[0]=="#"):
        words = words[1:] if words[0].startswith("///") else words[b.after(words,1):]
    return was(words)
b.without_attributes=without
if __name__=="__main__": sys.exit(m.main(*sys.argv[1:]))
