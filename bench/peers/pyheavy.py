#!/usr/bin/env python3
"""pyheavy.py N SEED OUT [--check]: the heavy site as a home-made Python
generator (no source files read), with jsonschema as validation."""
import json, os, sys
import heavy_site as g
PAT = {"ipv4": r"^[0-9]{1,3}(\.[0-9]{1,3}){3}$", "cidr": r"^[0-9]{1,3}(\.[0-9]{1,3}){3}/([0-9]|[12][0-9]|3[0-2])$",
       "macaddr": r"^[0-9a-f]{2}(:[0-9a-f]{2}){5}$", "fqdn": r"^[a-z0-9]([a-z0-9.-]*[a-z0-9])?$", "abspath": r"^/",
       "word": r"^[A-Za-z0-9_][A-Za-z0-9_.-]*$"}
def bound(d, lo, hi, a, b):
    if lo is not None: d[a] = lo
    if hi is not None: d[b] = hi
    return d
def conv(t):
    if t[0] == "s": return bound({"type": "string"}, t[1], t[2], "minLength", "maxLength")
    if t[0] == "l": return bound({"type": "integer"}, t[1], t[2], "minimum", "maximum")
    if t[0] == "b": return {"type": "boolean"}
    if t[0] == "n":
        if t[1] == "port": return {"type": "integer", "minimum": 1, "maximum": 65535}
        return {"type": "string", "pattern": PAT[t[1]]} if t[1] in PAT else {"$ref": "#/definitions/" + t[1]}
    if t[0] == "L": return bound({"type": "array", "items": conv(t[1])}, t[2], t[3], "minItems", "maxItems")
    return bound({"type": "object", "additionalProperties": conv(t[1])}, t[2], t[3], "minProperties", "maxProperties")
n, seed, out = int(sys.argv[1]), int(sys.argv[2]), sys.argv[3]
check = None
if "--check" in sys.argv:
    import jsonschema
    defs = {r: {"type": "object", "additionalProperties": False, "required": [k for k, need, _, _ in f if need],
                "properties": {k: conv(t) for k, _, t, _ in f}} for r, f in g.RECORDS}
    check = jsonschema.Draft7Validator({"definitions": defs, "$ref": "#/definitions/host"})
ser = g.serials(n, seed)
for i in range(n):
    m = g.model(i, ser[i])
    if check: check.validate(m)
    with open("%s/h%d.json" % (out, i), "w") as f:
        f.write(json.dumps(m, sort_keys=True, separators=(",", ":")) + "\n")
