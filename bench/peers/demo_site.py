#!/usr/bin/env python3
"""demo_site.py N SEED OUT

Writes a site of N small machines as Pan templates into OUT/pan, the same site for other languages into OUT/jsonnet,
OUT/nix, OUT/star and OUT/py, and the expected profiles (one line of compact JSON, keys in byte order) into OUT/expect.
A machine has a type with a range and a default, a structure template, an include, and reads the name of another one.
"""
import json
import os
import sys

M = 1 << 64


def ports(n, seed):
    x, out = seed, []
    for _ in range(n):
        x = (x * 6364136223846793005 + 1442695040888963407) % M
        out.append(1 + (x >> 33) % 65535)
    return out


def put(path, text):
    os.makedirs(os.path.dirname(path), exist_ok=True)
    with open(path, "w") as f:
        f.write(text)


# One host file in each language; bench/compare uses them again for its edits.

def pan_host(i, port, tail=""):
    s = ("object template h%d;\n"
         "include 'site/types';\n"
         "include 'site/common';\n"
         "bind '/' = host;\n"
         "'/hardware' = create('hw/box', 'serial', 's%d');\n"
         "'/name' = 'h%d';\n"
         "'/port' = %d;\n" % (i, i, i, port))
    if i:
        s += "'/gateway' = value('h%d:/name');\n" % ((i - 1) // 2)
    return s + tail


def nix_host(i, port, tail=""):
    s = ("let types = import ./site/types.nix; box = import ./hw/box.nix; in\n"
         "types.host ((import ./site/common.nix) // {\n"
         "  hardware = box // { serial = \"s%d\"; };\n"
         "  name = \"h%d\";\n"
         "  port = %d;\n" % (i, i, port))
    if i:
        j = (i - 1) // 2
        s += "  gateway = (import ./h%d.nix).name;\n" % j
    return s + "})\n" + tail


def star_host(i, port, tail=""):
    s = ("load('site/types.star', 'host')\n"
         "load('site/common.star', 'common')\n"
         "load('hw/box.star', 'box')\n")
    if i:
        s += "load('h%d.star', parent='profile')\n" % ((i - 1) // 2)
    s += ("profile = host(common(), hardware=box(serial='s%d'), name='h%d', "
          "port=%d%s)\n" % (i, i, port, ", gateway=parent['name']" if i else ""))
    return s + tail


def py_host(i, port, tail=""):
    d = {"include": ["site/common"], "create": {"hardware": ["hw/box", {"serial": "s%d" % i}]},
         "set": {"name": "h%d" % i, "port": port}}
    if i:
        d["refer"] = {"gateway": ["h%d" % ((i - 1) // 2), "name"]}
    return json.dumps(d) + "\n" + (" " * len(tail))


def expect(i, port, arch="x86_64"):
    d = {"active": True, "hardware": {"disks": {"sda": 500}, "serial": "s%d" % i},
         "name": "h%d" % i, "port": port, "system": {"arch": arch}}
    if i:
        d["gateway"] = "h%d" % ((i - 1) // 2)
    return json.dumps(d, sort_keys=True, separators=(",", ":")) + "\n"


PAN_TYPES = ("declaration template site/types;\n"
             "type host = extensible { 'name' : string 'port' : long(1..65535) "
             "'active' : boolean = true };\n")


def pan_common(arch="x86_64", tail=""):
    return "template site/common;\n'/system/arch' ?= '%s';\n%s" % (arch, tail)


def jsonnet_common(arch="x86_64", tail=""):
    return "{ system+: { arch: '%s' } }\n%s" % (arch, tail)


def nix_common(arch="x86_64", tail=""):
    return '{ system = { arch = "%s"; }; }\n%s' % (arch, tail)


def star_common(arch="x86_64", tail=""):
    return "def common():\n    return {'system': {'arch': '%s'}}\n%s" % (arch, tail)


def py_common(arch="x86_64", tail=""):
    return '{"system": {"arch": "%s"}}\n%s' % (arch, " " * len(tail))


PAN_BOX = "structure template hw/box;\n'serial' = 'none';\n'disks/sda' = 500;\n"
JSONNET_BOX = "{ serial: 'none', disks: { sda: 500 } }\n"
NIX_BOX = '{ serial = "none"; disks = { sda = 500; }; }\n'
STAR_BOX = ("def box(**kw):\n    b = {'serial': 'none', 'disks': {'sda': 500}}\n"
            "    b.update(kw)\n    return b\n")
JSONNET_TYPES = """{
  host: {
    assert std.isString(self.name) : 'name: not a string',
    assert std.isNumber(self.port) && self.port >= 1 && self.port <= 65535 : 'port: range',
    assert std.isBoolean(self.active) : 'active: not a boolean',
    active: true,
  },
}
"""
NIX_TYPES = """{
  host = given:
    let h = { active = true; } // given; in
    assert builtins.isString h.name;
    assert builtins.isInt h.port && h.port >= 1 && h.port <= 65535;
    assert builtins.isBool h.active;
    h;
}
"""
STAR_TYPES = """def host(base, **kw):
    h = {'active': True}
    h.update(base)
    h.update(kw)
    if type(h['name']) != 'string':
        fail('name: not a string')
    if type(h['port']) != 'int' or h['port'] < 1 or h['port'] > 65535:
        fail('port: range')
    if type(h['active']) != 'bool':
        fail('active: not a boolean')
    return h
"""
PY_SCHEMA = {"type": "object", "required": ["name", "port"], "properties": {
    "name": {"type": "string"},
    "port": {"type": "integer", "minimum": 1, "maximum": 65535},
    "active": {"type": "boolean", "default": True}}}
def jsonnet_one(n, p):
    """All hosts in one source: the bundled library is then read once."""
    s = ("local types = import 'site/types.libsonnet';\nlocal box = import 'hw/box.libsonnet';\n"
         "local common = import 'site/common.libsonnet';\nlocal hosts = {\n")
    for i in range(n):
        gw = ", gateway: hosts['h%d'].name" % ((i - 1) // 2) if i else ""
        s += "  h%d: common + types.host + { hardware: box { serial: 's%d' }, name: 'h%d', port: %d%s },\n" % (i, i, i, p[i], gw)
    return s + "};\n{ [h + '.json']: hosts[h] for h in std.objectFields(hosts) }\n"


def main():
    n, seed, out = int(sys.argv[1]), int(sys.argv[2]), sys.argv[3]
    p = ports(n, seed)
    put(out + "/pan/site/types.pan", PAN_TYPES)
    put(out + "/pan/site/common.pan", pan_common())
    put(out + "/pan/hw/box.pan", PAN_BOX)
    put(out + "/jsonnet/site/types.libsonnet", JSONNET_TYPES)
    put(out + "/jsonnet/site/common.libsonnet", jsonnet_common())
    put(out + "/jsonnet/hw/box.libsonnet", JSONNET_BOX)
    put(out + "/jsonnet/one.jsonnet", jsonnet_one(n, p))
    put(out + "/nix/site/types.nix", NIX_TYPES)
    put(out + "/nix/site/common.nix", nix_common())
    put(out + "/nix/hw/box.nix", NIX_BOX)
    put(out + "/nix/all.nix",
        "{\n" + "".join("  h%d = import ./h%d.nix;\n" % (i, i) for i in range(n)) + "}\n")
    put(out + "/star/site/types.star", STAR_TYPES)
    put(out + "/star/site/common.star", star_common())
    put(out + "/star/hw/box.star", STAR_BOX)
    put(out + "/py/site/common.json", py_common())
    put(out + "/py/hw/box.json", '{"serial": "none", "disks": {"sda": 500}}\n')
    put(out + "/py/schema.json", json.dumps(PY_SCHEMA) + "\n")
    for i in range(n):
        put(out + "/pan/h%d.pan" % i, pan_host(i, p[i]))
        put(out + "/nix/h%d.nix" % i, nix_host(i, p[i]))
        put(out + "/star/h%d.star" % i, star_host(i, p[i]))
        put(out + "/py/h%d.json" % i, py_host(i, p[i]))
        put(out + "/expect/h%d.json" % i, expect(i, p[i]))


if __name__ == "__main__":
    main()
