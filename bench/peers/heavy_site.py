#!/usr/bin/env python3
"""heavy_site.py N SEED OUT

Writes a site of N large machines: shared templates with nested includes, 30 record types with patterns and ranges, loops
that build a list of 200 rules and a dict of 200 packages, structure templates, defaults, `final`, `?=`, `valid`, dynamic
includes, lookups that miss, reads of up to ten other machines. Pan templates go into OUT/pan, the same site for other
languages into OUT/jsonnet, OUT/nix and OUT/star, the expected profiles (48 kB each) into OUT/expect.
"""
import json
import os
import sys

M = 1 << 64
ROLES = ["web", "db", "batch", "storage", "login", "monitor"]
SVC = {"web": [("http", 80), ("https", 443)], "db": [("sql", 5432)], "batch": [("queue", 15001)],
       "storage": [("nfs", 2049)], "login": [("gate", 2222)], "monitor": [("collector", 8086), ("panel", 3000)]}
PACKS = ("kernel-default glibc bash coreutils openssh-server openssh-clients rsyslog chrony cronie sudo vim-minimal "
         "python3 perl tar gzip xz curl wget lsof strace tcpdump iproute iptables nfs-utils lvm2 mdadm smartmontools "
         "ipmitool dmidecode ca-certificates").split()

S = ("s", None, None)
B = ("b",)


def R(lo=None, hi=None):
    return ("l", lo, hi)


def N(name):
    return ("n", name)


def LS(t, lo=None, hi=None):
    return ("L", t, lo, hi)


def DC(t, lo=None, hi=None):
    return ("D", t, lo, hi)


def q(k, t, d=None):
    return (k, True, t, d)


def o(k, t):
    return (k, False, t, None)


# file -> [(record, fields, with)]
TYPES = {
    "net": [
        ("interface", [q("device", N("word")), q("ip", N("ipv4")), q("netmask", N("ipv4")), q("mac", N("macaddr")),
                       q("mtu", R(576, 9216), 1500), o("gateway", N("ipv4"))]),
        ("route", [q("dest", N("cidr")), q("via", N("ipv4")), q("metric", R(0, None), 0)]),
        ("resolver", [q("servers", LS(N("ipv4"), 1, 3)), q("search", LS(N("fqdn"))), q("timeout", R(1, 30), 5)]),
        ("network", [q("hostname", N("word")), q("domain", N("fqdn")), q("ip", N("ipv4")), q("gateway", N("ipv4")),
                     q("interfaces", DC(N("interface"), 1, 8)), q("routes", LS(N("route"), 0, 100)),
                     q("resolver", N("resolver"))])],
    "hw": [
        ("cpu", [q("model", S), q("cores", R(1, 256)), q("mhz", R(100, 9000))]),
        ("disk", [q("size", R(1, None)), q("kind", N("word")), o("label", S)]),
        ("nic", [q("mac", N("macaddr")), q("speed", R(10, 400000), 10000)]),
        ("memory", [q("size", R(1, None)), q("slots", R(1, 64), 4)]),
        ("location", [q("room", ("s", 1, 8)), q("rack", R(1, 99)), q("slot", R(1, 48))]),
        ("machine", [q("serial", ("s", 1, 32)), q("cpus", LS(N("cpu"), 1, 8)), q("memory", N("memory")),
                     q("disks", DC(N("disk"), 1, None)), q("nics", DC(N("nic"))), q("location", N("location"))])],
    "sw": [
        ("package", [q("version", ("s", 1, 64)), q("arch", N("word")), q("repos", LS(N("word"), 1, None))]),
        ("repository", [q("name", N("word")), q("url", ("s", 1, 255)), q("enabled", B, True),
                        q("priority", R(1, 99), 50)]),
        ("software", [q("packages", DC(N("package"))), q("repositories", LS(N("repository"), 1, None))])],
    "sec": [
        ("rule", [q("port", N("port")), q("proto", N("word")), q("source", N("cidr")), q("action", N("word"), "accept"),
                  q("comment", ("s", 0, 80))]),
        ("firewall", [q("enabled", B, True), q("policy", N("word")), q("rules", LS(N("rule"), 0, 500))]),
        ("user", [q("uid", R(500, 60000)), q("gid", R(1, 60000)), q("home", N("abspath")), q("shell", N("abspath"))]),
        ("group", [q("gid", R(1, 60000)), q("members", LS(N("word")))]),
        ("sshd", [q("port", N("port"), 22), q("root", B), q("ciphers", LS(S, 1, None))]),
        ("security", [q("firewall", N("firewall")), q("users", DC(N("user"), 1, 1000)),
                      q("groups", DC(N("group"))), q("sshd", N("sshd"))])],
    "svc": [
        ("service", [q("name", N("word")), o("port", N("port")), q("enabled", B, True), o("after", LS(N("word")))]),
        ("cronjob", [q("minute", R(0, 59)), q("hour", R(0, 23)), q("command", N("abspath")), q("user", N("word"))]),
        ("ntp", [q("servers", LS(N("ipv4"), 1, None)), q("drift", N("abspath"))]),
        ("target", [q("host", N("fqdn")), q("port", N("port"), 514)]),
        ("syslog", [q("targets", LS(N("target"), 1, None)), q("level", N("word"))]),
        ("sysctl", [q("values", DC(R()))]),
        ("mount", [q("device", N("abspath")), q("path", N("abspath")), q("fs", N("word")), q("options", LS(N("word"))),
                   q("pass", R(0, 2), 0)]),
        ("export", [q("path", N("abspath")), q("clients", LS(N("cidr"), 1, None))])],
    "top": [
        ("peer", [q("name", N("word")), q("ip", N("ipv4"))]),
        ("relations", [o("parent", N("peer")), o("head", N("peer")), o("siblings", LS(N("ipv4"), 0, 8))]),
        ("host", [q("name", N("word")), q("cluster", N("word")), q("role", N("word")), q("network", N("network")),
                  q("hardware", N("machine")), q("software", N("software")), q("security", N("security")),
                  q("services", DC(N("service"), 1, None)), q("cron", LS(N("cronjob"))), q("ntp", N("ntp")),
                  q("syslog", N("syslog")), q("sysctl", N("sysctl")), q("mounts", LS(N("mount"), 1, 64)),
                  o("exports", LS(N("export"))), q("relations", N("relations"))])],
}
RECORDS = [r for f in TYPES.values() for r in f]
assert len(RECORDS) == 30


def put(path, text):
    os.makedirs(os.path.dirname(path), exist_ok=True)
    with open(path, "w") as f:
        f.write(text)


# ------------------------------------------------------------------ Pan -----

def pan_bounds(lo, hi):
    return "" if lo is None and hi is None else "%s..%s" % ("" if lo is None else lo, "" if hi is None else hi)


def pan_type(t):
    if t[0] in "sl":
        b = pan_bounds(t[1], t[2])
        return ("string" if t[0] == "s" else "long") + ("(%s)" % b if b else "")
    if t[0] == "b":
        return "boolean"
    if t[0] == "n":
        return t[1]
    return pan_type(t[1]) + ("[%s]" if t[0] == "L" else "{%s}") % pan_bounds(t[2], t[3])


def pan_value(d):
    return "'%s'" % d if isinstance(d, str) else str(d).lower() if isinstance(d, bool) else str(d)


def pan_types(name, recs, before):
    s = "declaration template site/types/%s;\n" % name
    s += "".join("include 'site/types/%s';\n" % b for b in before)
    for rec, fields in recs:
        s += "type %s = {\n" % rec
        for k, need, t, d in fields:
            s += "  '%s' %s %s%s\n" % (k, ":" if need else "?", pan_type(t), "" if d is None else " = " + pan_value(d))
        s += "}"
        if rec == "firewall":
            s += " with SELF['enabled'] || length(SELF['rules']) == 0"
        s += ";\n"
    return s


PAN_BASE = r"""declaration template site/types/base;
type ipv4 = string with match(SELF, '^[0-9]{1,3}(\.[0-9]{1,3}){3}$');
type cidr = string with match(SELF, '^[0-9]{1,3}(\.[0-9]{1,3}){3}/([0-9]|[12][0-9]|3[0-2])$');
type macaddr = string with match(SELF, '^[0-9a-f]{2}(:[0-9a-f]{2}){5}$');
type fqdn = string(1..255) with match(SELF, '^[a-z0-9]([a-z0-9.-]*[a-z0-9])?$');
type port = long(1..65535);
type abspath = string(1..255) with match(SELF, '^/');
type word = string(1..64) with match(SELF, '^[A-Za-z0-9_][A-Za-z0-9_.-]*$');
"""

PAN = {
    "site/functions": """declaration template site/functions;
variable PROTOS = list('tcp', 'udp');
variable FIXED_PACKAGES = list(%s);
function ip_of = long_to_ip4(167772160 + ARGV[0]);
function mac_of = format('02:00:%%02x:%%02x:%%02x:%%02x', ARGV[1], (ARGV[0] / 65536) %% 256,
  (ARGV[0] / 256) %% 256, ARGV[0] %% 256);
# rule_of(host number, rule number)
function rule_of = {
  n = ARGV[0];
  i = ARGV[1];
  r = dict('port', 1 + (n * 131 + i * 37) %% 65535, 'proto', PROTOS[i %% 2],
    'source', ip_of((n * 256 + i * 7) %% 16777216) + '/32');
  if (i %% 5 == 0) { r['action'] = 'drop'; };
  r['comment'] = format('rule %%03d of %%s', i, OBJECT);
  r;
};
function package_of = dict('version', format('%%d.%%d-%%d', 1 + ARGV[0] %% 7, ARGV[0] %% 10, 1 + INDEX %% 5),
  'arch', 'x86_64', 'repos', list('base', 'updates'));
""" % ", ".join("'%s'" % p for p in PACKS),
    "common/os/base": """template os/base;
include 'os/kernel';
include 'os/network';
include 'os/repos';
include 'os/packages';
include 'os/users';
include 'os/ssh';
include 'os/time';
include 'os/logging';
include 'os/cron';
include 'os/mounts';
include { if_exists('site/local/' + OBJECT) };
""",
    "common/os/kernel": """template os/kernel;
'/sysctl/values' = {
  for (i = 0; i < 50; i = i + 1) {
    SELF['net.key' + format('%02d', i)] = i * 1000 + INDEX % 7;
  };
  SELF;
};
""",
    "common/os/network": """template os/network;
prefix '/network';
'hostname' = OBJECT;
'domain' = DOMAIN;
'ip' = ip_of(INDEX);
'gateway' = GATEWAY;
'interfaces' = {
  foreach (k; dev; list('eth0', 'eth1')) {
    SELF[dev] = dict('device', dev, 'ip', ip_of(INDEX + k * 65536), 'netmask', '255.0.0.0',
      'mac', mac_of(INDEX, k));
    if (MTU != 1500) { SELF[dev]['mtu'] = MTU; };
  };
  SELF;
};
'interfaces/eth0/gateway' = GATEWAY;
'routes' = {
  r = list();
  i = 0;
  while (i < 20) {
    r[i] = dict('dest', '10.' + to_string(i) + '.0.0/16', 'via', GATEWAY, 'metric', i * 10);
    i = i + 1;
  };
  r;
};
'resolver' = dict('servers', list('10.0.0.53', '10.0.1.53'), 'search', list(DOMAIN, 'site.org'));
""",
    "common/os/repos": """template os/repos;
'/software/repositories' = {
  foreach (i; n; list('base', 'updates', 'extras', 'site')) {
    r = dict('name', n, 'url', 'repo/' + CLUSTER + '/' + n);
    if (n == 'site') { r['priority'] = 10; };
    append(r);
  };
  SELF;
};
""",
    "common/os/packages": """template os/packages;
'/software/packages' = {
  foreach (i; n; FIXED_PACKAGES) {
    SELF[escape(n)] = package_of(i);
  };
  i = 30;
  while (i < 200) {
    SELF[escape('pkg-' + format('%03d', i))] = package_of(i);
    i = i + 1;
  };
  SELF;
};
""",
    "common/os/users": """template os/users;
prefix '/security';
'users' = {
  i = 0;
  while (i < 60) {
    n = format('user%02d', i);
    SELF[n] = dict('uid', 1000 + i, 'gid', 100 + i % 10, 'home', '/home/' + n, 'shell', '/bin/bash');
    i = i + 1;
  };
  SELF;
};
'groups' = {
  g = 0;
  while (g < 10) {
    m = list();
    foreach (u; d; value('/security/users')) {
      if (d['gid'] == 100 + g) { m[length(m)] = u; };
    };
    SELF[format('grp%02d', g)] = dict('gid', 100 + g, 'members', m);
    g = g + 1;
  };
  SELF;
};
valid 'users' = length(SELF) >= 10;
""",
    "common/os/ssh": """template os/ssh;
final '/security/sshd/root' = false;
'/security/sshd/ciphers' = list('aes256-gcm', 'chacha20', 'aes128-ctr');
""",
    "common/os/time": """template os/time;
'/ntp' = dict('servers', list('10.0.0.123', '10.0.1.123'), 'drift', '/var/lib/ntp/drift');
""",
    "common/os/logging": """template os/logging;
'/syslog/targets' = list(dict('host', 'log1.' + DOMAIN), dict('host', 'log2.' + DOMAIN, 'port', 6514));
'/syslog/level' ?= 'info';
""",
    "common/os/cron": """template os/cron;
'/cron' = {
  i = 0;
  while (i < 20) {
    append(dict('minute', (INDEX + i * 3) % 60, 'hour', i % 24, 'command', '/usr/libexec/job' + to_string(i),
      'user', 'root'));
    i = i + 1;
  };
  SELF;
};
""",
    "common/os/mounts": """template os/mounts;
'/mounts' = {
  m = list(dict('device', '/dev/sda1', 'path', '/', 'fs', 'xfs', 'options', list('defaults'), 'pass', 1));
  for (i = 1; i < 40; i = i + 1) {
    append(m, dict('device', '/dev/vg0/lv' + format('%02d', i), 'path', '/data/' + format('%02d', i), 'fs', 'xfs',
      'options', list('noatime', 'nodev')));
  };
  m;
};
""",
    "common/hw/cpu_a": "structure template hw/cpu_a;\n'model' = 'A-2100';\n'cores' = 16;\n'mhz' = 2500;\n",
    "common/hw/cpu_b": "structure template hw/cpu_b;\ninclude 'hw/cpu_a';\n'model' = 'B-9000';\n'cores' = 64;\n",
    "common/hw/disk_ssd": "structure template hw/disk_ssd;\n'size' = 960;\n'kind' = 'ssd';\n",
    "common/hw/disk_hdd": "structure template hw/disk_hdd;\n'size' = 4000;\n'kind' = 'hdd';\n",
    "common/hw/mem": "structure template hw/mem;\n'size' = 64;\n",
    "common/hw/nic": "structure template hw/nic;\n'mac' = '00:00:00:00:00:00';\n",
    "common/hw/box_small": """structure template hw/box_small;
'serial' = 'none';
'cpus' = list(create('hw/cpu_a'), create('hw/cpu_a'));
'memory' = create('hw/mem');
'disks/sda' = create('hw/disk_ssd', 'label', 'system');
'nics' = {
  foreach (k; dev; list('eth0', 'eth1')) {
    SELF[dev] = create('hw/nic', 'mac', mac_of(INDEX, k));
  };
  SELF;
};
""",
    "common/hw/box_big": """structure template hw/box_big;
include 'hw/box_small';
'cpus' = list(create('hw/cpu_b'), create('hw/cpu_b'));
'memory' = create('hw/mem', 'size', 1024, 'slots', 32);
'disks' = {
  d = dict();
  for (i = 0; i < 12; i = i + 1) {
    d[format('sd%02d', i)] = create('hw/disk_hdd', 'size', 4000 + i);
  };
  d;
};
""",
    "common/role/common": """template role/common;
include 'svc/mon';
include 'svc/agent';
'/role' = ROLE;
'/cluster' = CLUSTER;
'/security/firewall/policy' = 'drop';
'/security/firewall/rules' = {
  i = 0;
  while (i < 200) {
    append(rule_of(INDEX, i));
    i = i + 1;
  };
  SELF;
};
""",
    "common/svc/mon": "template svc/mon;\n'/services/mon' = dict('name', 'mon', 'port', 9100);\n",
    "common/svc/agent": "template svc/agent;\n'/services/agent' = dict('name', 'agent', 'after', list('mon'));\n",
}
for _r, _l in SVC.items():
    PAN["common/role/" + _r] = ("template role/%s;\ninclude 'role/common';\n" % _r
                                + "".join("include 'svc/%s';\n" % n for n, _ in _l))
    for _n, _p in _l:
        PAN["common/svc/" + _n] = ("template svc/%s;\n'/services/%s' = dict('name', '%s', 'port', %d, "
                                   "'after', list('network', 'mon'));\n" % (_n, _n, _n, _p))
PAN["common/role/storage"] += """'/exports' = {
  i = 0;
  while (i < 100) {
    c = list();
    foreach (k; b; list(0, 64, 128, 192)) {
      c[k] = ip_of(i * 256 + b) + '/26';
    };
    append(dict('path', '/export/' + format('%03d', i), 'clients', c));
    i = i + 1;
  };
  SELF;
};
"""


def pan_cluster(k, mtu=None):
    s = ("template cluster/c%d;\nvariable CLUSTER = 'c%d';\nvariable DOMAIN = 'c%d.site.org';\n"
         "variable GATEWAY = '10.255.%d.1';\nvariable MTU = %d;\n" % (k, k, k, k, 9000 if k == 0 else 1500))
    return s + ("'/syslog/level' = 'debug';\n" if k == 3 else "")


def pan_host(i, serial, tail=""):
    s = ("object template h%d;\nvariable LOADPATH = list('prod', 'common');\nvariable INDEX = %d;\n"
         "variable ROLE = '%s';\ninclude 'site/types/top';\ninclude 'site/functions';\ninclude 'cluster/c%d';\n"
         "bind '/' = host;\n'/name' = OBJECT;\n"
         "'/hardware' = create('hw/%s', 'serial', '%s', 'location',\n"
         "  dict('room', 'R%d', 'rack', %d, 'slot', %d));\n"
         "include 'os/base';\ninclude { 'role/' + ROLE };\n'/relations' = dict();\n"
         % (i, i, ROLES[i % 6], i % 4, "box_big" if i % 3 == 0 else "box_small", serial, i % 3, 1 + i // 48 % 99, 1 + i % 48))
    if i:
        j = (i - 1) // 2
        s += "'/relations/parent' = dict('name', value('h%d:/name'), 'ip', value('h%d:/network/ip'));\n" % (j, j)
    if i >= 4:
        s += "'/relations/head' = dict('name', value('h%d:/name'), 'ip', value('h%d:/network/ip'));\n" % (i % 4, i % 4)
    if i:
        s += ("'/relations/siblings' = {\n  foreach (k; h; list(%s)) {\n    append(value(h + ':/network/ip'));\n  };\n  SELF;\n};\n"
              % ", ".join("'h%d'" % j for j in range(max(0, i - 8), i)))
    return s + tail


# -------------------------------------------------- the model (expected) ----

def fill(t, v):
    k = t[0]
    if k == "n" and t[1] in FIELDS:
        for key, _, ft, d in FIELDS[t[1]]:
            if key not in v and d is not None:
                v[key] = d
            if key in v:
                fill(ft, v[key])
    elif k == "L":
        for x in v:
            fill(t[1], x)
    elif k == "D":
        for x in v.values():
            fill(t[1], x)


FIELDS = {r: f for r, f in RECORDS}


def ip_of(n):
    n += 167772160
    return "%d.%d.%d.%d" % (n >> 24, n >> 16 & 255, n >> 8 & 255, n & 255)


def mac_of(n, k):
    return "02:00:%02x:%02x:%02x:%02x" % (k, n >> 16 & 255, n >> 8 & 255, n & 255)


def esc(t):
    return "".join(c if c.isalnum() else "_%02x" % ord(c) for c in t)


def model(i, serial):
    k, role = i % 4, ROLES[i % 6]
    dom, gw = "c%d.site.org" % k, "10.255.%d.1" % k
    pk = lambda a: {"version": "%d.%d-%d" % (1 + a % 7, a % 10, 1 + i % 5), "arch": "x86_64", "repos": ["base", "updates"]}
    users = {"user%02d" % u: {"uid": 1000 + u, "gid": 100 + u % 10, "home": "/home/user%02d" % u, "shell": "/bin/bash"}
             for u in range(60)}
    ifs = {}
    for x, dev in enumerate(("eth0", "eth1")):
        ifs[dev] = {"device": dev, "ip": ip_of(i + x * 65536), "netmask": "255.0.0.0", "mac": mac_of(i, x)}
        if k == 0:
            ifs[dev]["mtu"] = 9000
    ifs["eth0"]["gateway"] = gw
    big = i % 3 == 0
    rules = []
    for a in range(200):
        r = {"port": 1 + (i * 131 + a * 37) % 65535, "proto": ("tcp", "udp")[a % 2],
             "source": ip_of((i * 256 + a * 7) % 16777216) + "/32", "comment": "rule %03d of h%d" % (a, i)}
        if a % 5 == 0:
            r["action"] = "drop"
        rules.append(r)
    services = {"mon": {"name": "mon", "port": 9100}, "agent": {"name": "agent", "after": ["mon"]}}
    for n, p in SVC[role]:
        services[n] = {"name": n, "port": p, "after": ["network", "mon"]}
    h = {
        "name": "h%d" % i, "cluster": "c%d" % k, "role": role,
        "network": {"hostname": "h%d" % i, "domain": dom, "ip": ip_of(i), "gateway": gw, "interfaces": ifs,
                    "routes": [{"dest": "10.%d.0.0/16" % a, "via": gw, "metric": a * 10} for a in range(20)],
                    "resolver": {"servers": ["10.0.0.53", "10.0.1.53"], "search": [dom, "site.org"]}},
        "hardware": {"serial": serial,
                     "cpus": [{"model": "B-9000", "cores": 64, "mhz": 2500} if big else
                              {"model": "A-2100", "cores": 16, "mhz": 2500} for _ in range(2)],
                     "memory": {"size": 1024, "slots": 32} if big else {"size": 64},
                     "disks": {"sd%02d" % a: {"size": 4000 + a, "kind": "hdd"} for a in range(12)} if big else
                     {"sda": {"size": 960, "kind": "ssd", "label": "system"}},
                     "nics": {d: {"mac": mac_of(i, x)} for x, d in enumerate(("eth0", "eth1"))},
                     "location": {"room": "R%d" % (i % 3), "rack": 1 + i // 48 % 99, "slot": 1 + i % 48}},
        "software": {"packages": {**{esc(n): pk(a) for a, n in enumerate(PACKS)},
                                  **{esc("pkg-%03d" % a): pk(a) for a in range(30, 200)}},
                     "repositories": [dict({"name": n, "url": "repo/c%d/%s" % (k, n)}, **({"priority": 10} if n == "site" else {}))
                                      for n in ("base", "updates", "extras", "site")]},
        "security": {"firewall": {"policy": "drop", "rules": rules}, "users": users,
                     "groups": {"grp%02d" % g: {"gid": 100 + g, "members": sorted(u for u in users if users[u]["gid"] == 100 + g)}
                                for g in range(10)},
                     "sshd": {"root": False, "ciphers": ["aes256-gcm", "chacha20", "aes128-ctr"]}},
        "services": services,
        "cron": [{"minute": (i + a * 3) % 60, "hour": a % 24, "command": "/usr/libexec/job%d" % a, "user": "root"} for a in range(20)],
        "ntp": {"servers": ["10.0.0.123", "10.0.1.123"], "drift": "/var/lib/ntp/drift"},
        "syslog": {"targets": [{"host": "log1." + dom}, {"host": "log2." + dom, "port": 6514}], "level": "debug" if k == 3 else "info"},
        "sysctl": {"values": {"net.key%02d" % a: a * 1000 + i % 7 for a in range(50)}},
        "mounts": [{"device": "/dev/sda1", "path": "/", "fs": "xfs", "options": ["defaults"], "pass": 1}] +
                  [{"device": "/dev/vg0/lv%02d" % a, "path": "/data/%02d" % a, "fs": "xfs", "options": ["noatime", "nodev"]}
                   for a in range(1, 40)],
        "relations": {},
    }
    peer = lambda j: {"name": "h%d" % j, "ip": ip_of(j)}
    if i:
        h["relations"]["parent"] = peer((i - 1) // 2)
        h["relations"]["siblings"] = [ip_of(j) for j in range(max(0, i - 8), i)]
    if i >= 4:
        h["relations"]["head"] = peer(i % 4)
    if role == "storage":
        h["exports"] = [{"path": "/export/%03d" % a, "clients": [ip_of(a * 256 + b) + "/26" for b in (0, 64, 128, 192)]}
                        for a in range(100)]
    fill(N("host"), h)
    return h


# ------------------------------------------------------- peers: shared ------

def schema_data():
    def enc(t):
        if t[0] in "sl":
            return {"k": t[0], "lo": t[1], "hi": t[2]}
        if t[0] == "b":
            return {"k": "b"}
        if t[0] == "n":
            return {"k": "n", "n": t[1]}
        return {"k": t[0], "t": enc(t[1]), "lo": t[2], "hi": t[3]}
    return {r: [{"key": k, "need": need, "t": enc(t), "d": d} for k, need, t, d in f] for r, f in RECORDS}


def nixlit(v):
    if isinstance(v, dict):
        return "{ " + "".join('"%s" = %s; ' % (k, nixlit(x)) for k, x in v.items()) + "}"
    if isinstance(v, (list, tuple)):
        return "[ " + " ".join("(%s)" % nixlit(x) for x in v) + " ]"
    return "null" if v is None else json.dumps(v)


def starlit(v):
    return repr(json.loads(json.dumps(v)))


JN_LIB = r"""// helpers a site has to write for itself: the language has no patterns and no types
local schema = import 'schema.libsonnet';
local all(f, l) = std.length([x for x in l if !f(x)]) == 0;
local inr(lo, hi, n) = (lo == null || n >= lo) && (hi == null || n <= hi);
local digits(s) = std.length(s) >= 1 && std.length(s) <= 3 && all(function(c) c >= '0' && c <= '9', std.stringChars(s));
local ipv4(s) = local p = std.split(s, '.'); std.length(p) == 4 && all(digits, p);
local oneof(f, s) = all(f, std.stringChars(s));
local hex(c) = c >= '0' && c <= '9' || c >= 'a' && c <= 'f';
local lower(c) = c >= '0' && c <= '9' || c >= 'a' && c <= 'z';
local lowerx(c) = lower(c) || c == '.' || c == '-';
local alnum(c) = lower(c) || c >= 'A' && c <= 'Z';
local word(c) = alnum(c) || c == '_';
local wordx(c) = word(c) || c == '.' || c == '-';
local base = {
  ipv4: ipv4,
  cidr(s): local p = std.split(s, '/'); std.length(p) == 2 && ipv4(p[0]) && digits(p[1]) && std.parseInt(p[1]) <= 32,
  macaddr(s): local p = std.split(s, ':'); std.length(p) == 6 && all(function(x) std.length(x) == 2 && oneof(hex, x), p),
  fqdn(s): std.length(s) >= 1 && std.length(s) <= 255 && oneof(lowerx, s) && lower(s[0]) && lower(s[std.length(s) - 1]),
  abspath(s): std.length(s) >= 1 && std.length(s) <= 255 && s[0] == '/',
  word(s): std.length(s) >= 1 && std.length(s) <= 64 && oneof(wordx, s) && word(s[0]),
};
local check(path, t, v) =
  if t.k == 's' then if std.isString(v) && inr(t.lo, t.hi, std.length(v)) then v else error path + ': string'
  else if t.k == 'l' then if std.isNumber(v) && v == std.floor(v) && inr(t.lo, t.hi, v) then v else error path + ': long'
  else if t.k == 'b' then if std.isBoolean(v) then v else error path + ': boolean'
  else if t.k == 'L' then
    if std.isArray(v) && inr(t.lo, t.hi, std.length(v)) then [check(path, t.t, x) for x in v] else error path + ': list'
  else if t.k == 'D' then
    if std.isObject(v) && inr(t.lo, t.hi, std.length(v)) then { [x]: check(path + '/' + x, t.t, v[x]) for x in std.objectFields(v) }
    else error path + ': dict'
  else if t.n == 'port' then if std.isNumber(v) && inr(1, 65535, v) then v else error path + ': port'
  else if std.objectHasAll(base, t.n) then if std.isString(v) && base[t.n](v) then v else error path + ': ' + t.n
  else
    local f = schema[t.n];
    assert std.isObject(v) : path + ': record';
    assert std.length(std.setDiff(std.objectFields(v), std.set([x.key for x in f]))) == 0 : path + ': extra field';
    assert t.n != 'firewall' || !std.objectHas(v, 'enabled') || v.enabled || std.length(v.rules) == 0 : path + ': with';
    {
      [x.key]: check(path + '/' + x.key, x.t, if std.objectHas(v, x.key) then v[x.key] else if x.d != null then x.d else error path + '/' + x.key + ': missing')
      for x in f if x.need || std.objectHas(v, x.key)
    };
{
  check: check,
  ip(n):: local m = n + 167772160; '%d.%d.%d.%d' % [m >> 24, (m >> 16) & 255, (m >> 8) & 255, m & 255],
  mac(n, k):: '02:00:%02x:%02x:%02x:%02x' % [k, (n >> 16) & 255, (n >> 8) & 255, n & 255],
  esc(t):: std.join('', [if alnum(c) then c else '_%02x' % std.codepoint(c) for c in std.stringChars(t)]),
}
"""
JN_OS = r"""local lib = import 'lib.libsonnet';
local hw = import 'hw.libsonnet';
local packs = %s;
// a host: index, role, cluster
function(i, role, c) {
  local pk(a) = { version: '%%d.%%d-%%d' %% [1 + a %% 7, a %% 10, 1 + i %% 5], arch: 'x86_64', repos: ['base', 'updates'] },
  local users = { ['user%%02d' %% u]: { uid: 1000 + u, gid: 100 + u %% 10, home: '/home/user%%02d' %% u, shell: '/bin/bash' } for u in std.range(0, 59) },
  name: 'h%%d' %% i,
  cluster: c.cluster,
  role: role,
  sysctl: { values: { ['net.key%%02d' %% a]: a * 1000 + i %% 7 for a in std.range(0, 49) } },
  network: {
    hostname: 'h%%d' %% i, domain: c.domain, ip: lib.ip(i), gateway: c.gateway,
    interfaces: {
      [if x == 0 then 'eth0' else 'eth1']: { device: if x == 0 then 'eth0' else 'eth1', ip: lib.ip(i + x * 65536), netmask: '255.0.0.0', mac: lib.mac(i, x) }
        + (if c.mtu != 1500 then { mtu: c.mtu } else {}) + (if x == 0 then { gateway: c.gateway } else {})
      for x in [0, 1]
    },
    routes: [{ dest: '10.%%d.0.0/16' %% a, via: c.gateway, metric: a * 10 } for a in std.range(0, 19)],
    resolver: { servers: ['10.0.0.53', '10.0.1.53'], search: [c.domain, 'site.org'] },
  },
  software: {
    packages: { [lib.esc(packs[a])]: pk(a) for a in std.range(0, 29) } + { [lib.esc('pkg-%%03d' %% a)]: pk(a) for a in std.range(30, 199) },
    repositories: [{ name: n, url: 'repo/' + c.cluster + '/' + n } + (if n == 'site' then { priority: 10 } else {}) for n in ['base', 'updates', 'extras', 'site']],
  },
  security: {
    firewall: {
      policy: 'drop',
      rules: [
        { port: 1 + (i * 131 + a * 37) %% 65535, proto: if a %% 2 == 0 then 'tcp' else 'udp', source: lib.ip((i * 256 + a * 7) %% 16777216) + '/32', comment: 'rule %%03d of h%%d' %% [a, i] }
        + (if a %% 5 == 0 then { action: 'drop' } else {})
        for a in std.range(0, 199)
      ],
    },
    users: users,
    groups: { ['grp%%02d' %% g]: { gid: 100 + g, members: [u for u in std.objectFields(users) if users[u].gid == 100 + g] } for g in std.range(0, 9) },
    sshd: { root: false, ciphers: ['aes256-gcm', 'chacha20', 'aes128-ctr'] },
  },
  services: { mon: { name: 'mon', port: 9100 }, agent: { name: 'agent', after: ['mon'] } } + { [s[0]]: { name: s[0], port: s[1], after: ['network', 'mon'] } for s in hw.svc[role] },
  cron: [{ minute: (i + a * 3) %% 60, hour: a %% 24, command: '/usr/libexec/job%%d' %% a, user: 'root' } for a in std.range(0, 19)],
  ntp: { servers: ['10.0.0.123', '10.0.1.123'], drift: '/var/lib/ntp/drift' },
  syslog: { targets: [{ host: 'log1.' + c.domain }, { host: 'log2.' + c.domain, port: 6514 }], level: c.level },
  mounts: [{ device: '/dev/sda1', path: '/', fs: 'xfs', options: ['defaults'], pass: 1 }]
    + [{ device: '/dev/vg0/lv%%02d' %% a, path: '/data/%%02d' %% a, fs: 'xfs', options: ['noatime', 'nodev'] } for a in std.range(1, 39)],
  relations: {},
} + if role == 'storage' then { exports: [{ path: '/export/%%03d' %% a, clients: [lib.ip(a * 256 + b) + '/26' for b in [0, 64, 128, 192]] } for a in std.range(0, 99)] } else {}
""" % json.dumps(PACKS)
JN_HW = r"""local lib = import 'lib.libsonnet';
local cpu_a = { model: 'A-2100', cores: 16, mhz: 2500 };
local cpu_b = cpu_a { model: 'B-9000', cores: 64 };
local small(i) = {
  serial: 'none', cpus: [cpu_a, cpu_a], memory: { size: 64 }, disks: { sda: { size: 960, kind: 'ssd', label: 'system' } },
  nics: { eth0: { mac: lib.mac(i, 0) }, eth1: { mac: lib.mac(i, 1) } },
};
{
  svc: %s,
  small: small,
  big(i): small(i) + { cpus: [cpu_b, cpu_b], memory: { size: 1024, slots: 32 }, disks: { ['sd%%02d' %% a]: { size: 4000 + a, kind: 'hdd' } for a in std.range(0, 11) } },
}
""" % json.dumps(SVC)


def jn_host(i, serial, tail=""):
    k = i % 4
    s = ("local lib = import 'lib.libsonnet';\nlocal hw = import 'hw.libsonnet';\nlocal os = import 'os.libsonnet';\n"
         "lib.check('h%d', { k: 'n', n: 'host' }, os(%d, '%s', import 'cluster/c%d.libsonnet') {\n"
         "  hardware: hw.%s(%d) { serial: '%s', location: { room: 'R%d', rack: %d, slot: %d } },\n  relations: {\n"
         % (i, i, ROLES[i % 6], k, "big" if i % 3 == 0 else "small", i, serial, i % 3, 1 + i // 48 % 99, 1 + i % 48))
    if i:
        j = (i - 1) // 2
        s += "    parent: { name: (import 'h%d.jsonnet').name, ip: (import 'h%d.jsonnet').network.ip },\n" % (j, j)
        s += "    siblings: [%s],\n" % ", ".join("(import 'h%d.jsonnet').network.ip" % j for j in range(max(0, i - 8), i))
    if i >= 4:
        s += "    head: { name: (import 'h%d.jsonnet').name, ip: (import 'h%d.jsonnet').network.ip },\n" % (k, k)
    return s + "  },\n})\n" + tail


NIX_LIB = r"""let
  schema = import ./schema.nix;
  inr = lo: hi: n: (lo == null || n >= lo) && (hi == null || n <= hi);
  pat = {
    ipv4 = "[0-9]{1,3}(\\.[0-9]{1,3}){3}";
    cidr = "[0-9]{1,3}(\\.[0-9]{1,3}){3}/([0-9]|[12][0-9]|3[0-2])";
    macaddr = "[0-9a-f]{2}(:[0-9a-f]{2}){5}";
    fqdn = "[a-z0-9]([a-z0-9.-]*[a-z0-9])?";
    abspath = "/.*";
    word = "[A-Za-z0-9_][A-Za-z0-9_.-]*";
  };
  size = { ipv4 = 4096; cidr = 4096; macaddr = 4096; fqdn = 255; abspath = 255; word = 64; };
  check = path: t: v:
    if t.k == "s" then (if builtins.isString v && inr t.lo t.hi (builtins.stringLength v) then v else throw "${path}: string")
    else if t.k == "l" then (if builtins.isInt v && inr t.lo t.hi v then v else throw "${path}: long")
    else if t.k == "b" then (if builtins.isBool v then v else throw "${path}: boolean")
    else if t.k == "L" then
      (if builtins.isList v && inr t.lo t.hi (builtins.length v) then map (check path t.t) v else throw "${path}: list")
    else if t.k == "D" then
      (if builtins.isAttrs v && inr t.lo t.hi (builtins.length (builtins.attrNames v))
       then builtins.mapAttrs (k: x: check "${path}/${k}" t.t x) v else throw "${path}: dict")
    else if t.n == "port" then (if builtins.isInt v && inr 1 65535 v then v else throw "${path}: port")
    else if pat ? ${t.n} then
      (if builtins.isString v && builtins.stringLength v <= size.${t.n} && builtins.match pat.${t.n} v != null then v else throw "${path}: ${t.n}")
    else
      let
        f = schema.${t.n};
        extra = builtins.removeAttrs v (map (x: x.key) f);
      in
      if !builtins.isAttrs v then throw "${path}: record"
      else if extra != { } then throw "${path}: extra field"
      else if t.n == "firewall" && v ? enabled && !v.enabled && v.rules != [ ] then throw "${path}: with"
      else builtins.listToAttrs (builtins.concatMap (x:
        if x.need || v ? ${x.key} then [ {
          name = x.key;
          value = check "${path}/${x.key}" x.t (v.${x.key} or (if x.d != null then x.d else throw "${path}/${x.key}: missing"));
        } ] else [ ]) f);
  hexd = [ "0" "1" "2" "3" "4" "5" "6" "7" "8" "9" "a" "b" "c" "d" "e" "f" ];
  mod = a: b: a - b * (a / b);
  hex = n: builtins.elemAt hexd (mod (n / 16) 16) + builtins.elemAt hexd (mod n 16);
  s = toString;
in rec {
  inherit check mod;
  range = a: b: builtins.genList (x: a + x) (b - a + 1);
  two = n: if n < 10 then "0${s n}" else s n;
  three = n: if n < 100 then "0${two n}" else s n;
  ip = n: let m = n + 167772160; in "${s (m / 16777216)}.${s (mod (m / 65536) 256)}.${s (mod (m / 256) 256)}.${s (mod m 256)}";
  mac = n: k: "02:00:${hex k}:${hex (n / 65536)}:${hex (n / 256)}:${hex n}";
  # the only byte to escape at this site is the hyphen
  esc = t: builtins.replaceStrings [ "-" ] [ "_2d" ] t;
  attrs = f: l: builtins.listToAttrs (map f l);
}
"""
NIX_OS = r"""let lib = import ./lib.nix; hw = import ./hw.nix; s = toString; packs = %s; in
with lib;
i: role: c:
let
  pk = a: { version = "${s (1 + mod a 7)}.${s (mod a 10)}-${s (1 + mod i 5)}"; arch = "x86_64"; repos = [ "base" "updates" ]; };
  users = attrs (u: { name = "user${two u}"; value = { uid = 1000 + u; gid = 100 + mod u 10; home = "/home/user${two u}"; shell = "/bin/bash"; }; }) (range 0 59);
in {
  name = "h${s i}"; cluster = c.cluster; inherit role;
  sysctl.values = attrs (a: { name = "net.key${two a}"; value = a * 1000 + mod i 7; }) (range 0 49);
  network = {
    hostname = "h${s i}"; domain = c.domain; ip = ip i; gateway = c.gateway;
    interfaces = attrs (x: let dev = "eth${s x}"; in { name = dev; value = {
      device = dev; ip = ip (i + x * 65536); netmask = "255.0.0.0"; mac = mac i x;
    } // (if c.mtu != 1500 then { mtu = c.mtu; } else { }) // (if x == 0 then { gateway = c.gateway; } else { }); }) [ 0 1 ];
    routes = map (a: { dest = "10.${s a}.0.0/16"; via = c.gateway; metric = a * 10; }) (range 0 19);
    resolver = { servers = [ "10.0.0.53" "10.0.1.53" ]; search = [ c.domain "site.org" ]; };
  };
  software = {
    packages = attrs (a: { name = esc (builtins.elemAt packs a); value = pk a; }) (range 0 29)
      // attrs (a: { name = esc "pkg-${three a}"; value = pk a; }) (range 30 199);
    repositories = map (n: { name = n; url = "repo/${c.cluster}/${n}"; } // (if n == "site" then { priority = 10; } else { })) [ "base" "updates" "extras" "site" ];
  };
  security = {
    firewall = {
      policy = "drop";
      rules = map (a: {
        port = 1 + mod (i * 131 + a * 37) 65535; proto = if mod a 2 == 0 then "tcp" else "udp";
        source = ip (mod (i * 256 + a * 7) 16777216) + "/32"; comment = "rule ${three a} of h${s i}";
      } // (if mod a 5 == 0 then { action = "drop"; } else { })) (range 0 199);
    };
    inherit users;
    groups = attrs (g: { name = "grp${two g}"; value = { gid = 100 + g; members = builtins.filter (u: users.${u}.gid == 100 + g) (builtins.attrNames users); }; }) (range 0 9);
    sshd = { root = false; ciphers = [ "aes256-gcm" "chacha20" "aes128-ctr" ]; };
  };
  services = { mon = { name = "mon"; port = 9100; }; agent = { name = "agent"; after = [ "mon" ]; }; }
    // attrs (x: { name = builtins.elemAt x 0; value = { name = builtins.elemAt x 0; port = builtins.elemAt x 1; after = [ "network" "mon" ]; }; }) hw.svc.${role};
  cron = map (a: { minute = mod (i + a * 3) 60; hour = mod a 24; command = "/usr/libexec/job${s a}"; user = "root"; }) (range 0 19);
  ntp = { servers = [ "10.0.0.123" "10.0.1.123" ]; drift = "/var/lib/ntp/drift"; };
  syslog = { targets = [ { host = "log1.${c.domain}"; } { host = "log2.${c.domain}"; port = 6514; } ]; level = c.level; };
  mounts = [ { device = "/dev/sda1"; path = "/"; fs = "xfs"; options = [ "defaults" ]; pass = 1; } ]
    ++ map (a: { device = "/dev/vg0/lv${two a}"; path = "/data/${two a}"; fs = "xfs"; options = [ "noatime" "nodev" ]; }) (range 1 39);
  relations = { };
} // (if role == "storage" then { exports = map (a: { path = "/export/${three a}"; clients = map (b: ip (a * 256 + b) + "/26") [ 0 64 128 192 ]; }) (range 0 99); } else { })
""".replace("%s", nixlit(PACKS), 1)
NIX_HW = r"""let
  lib = import ./lib.nix;
  cpu_a = { model = "A-2100"; cores = 16; mhz = 2500; };
  cpu_b = cpu_a // { model = "B-9000"; cores = 64; };
in rec {
  svc = %s;
  small = i: {
    serial = "none"; cpus = [ cpu_a cpu_a ]; memory = { size = 64; }; disks = { sda = { size = 960; kind = "ssd"; label = "system"; }; };
    nics = { eth0 = { mac = lib.mac i 0; }; eth1 = { mac = lib.mac i 1; }; };
  };
  big = i: small i // { cpus = [ cpu_b cpu_b ]; memory = { size = 1024; slots = 32; };
    disks = lib.attrs (a: { name = "sd${lib.two a}"; value = { size = 4000 + a; kind = "hdd"; }; }) (lib.range 0 11); };
}
""".replace("%s", nixlit(SVC), 1)


def nix_host(i, serial, tail=""):
    k = i % 4
    s = ("let lib = import ./lib.nix; hw = import ./hw.nix; os = import ./os.nix; in\n"
         "lib.check \"h%d\" { k = \"n\"; n = \"host\"; } (os %d \"%s\" (import ./cluster/c%d.nix) // {\n"
         "  hardware = hw.%s %d // { serial = \"%s\"; location = { room = \"R%d\"; rack = %d; slot = %d; }; };\n  relations = {\n"
         % (i, i, ROLES[i % 6], k, "big" if i % 3 == 0 else "small", i, serial, i % 3, 1 + i // 48 % 99, 1 + i % 48))
    if i:
        j = (i - 1) // 2
        s += "    parent = { name = (import ./h%d.nix).name; ip = (import ./h%d.nix).network.ip; };\n" % (j, j)
        s += "    siblings = [ %s ];\n" % " ".join("(import ./h%d.nix).network.ip" % j for j in range(max(0, i - 8), i))
    if i >= 4:
        s += "    head = { name = (import ./h%d.nix).name; ip = (import ./h%d.nix).network.ip; };\n" % (k, k)
    return s + "  };\n})\n" + tail


STAR_LIB = r"""load('schema.star', 'SCHEMA')
HEX = '0123456789abcdef'
LOWER = 'abcdefghijklmnopqrstuvwxyz0123456789'
UPPER = 'ABCDEFGHIJKLMNOPQRSTUVWXYZ'
def inr(lo, hi, n):
    return (lo == None or n >= lo) and (hi == None or n <= hi)
def oneof(chars, s):
    return s.strip(chars) == '' if len(s) < 3 else all([c in chars for c in s.elems()])
def digits(s):
    return len(s) >= 1 and len(s) <= 3 and s.isdigit()
def ipv4(s):
    p = s.split('.')
    return len(p) == 4 and digits(p[0]) and digits(p[1]) and digits(p[2]) and digits(p[3])
def cidr(s):
    p = s.split('/')
    return len(p) == 2 and ipv4(p[0]) and digits(p[1]) and int(p[1]) <= 32
def macaddr(s):
    p = s.split(':')
    return len(p) == 6 and all([len(x) == 2 and oneof(HEX, x) for x in p])
def fqdn(s):
    return len(s) >= 1 and len(s) <= 255 and oneof(LOWER + '.-', s) and oneof(LOWER, s[0] + s[-1])
def abspath(s):
    return len(s) >= 1 and len(s) <= 255 and s[0] == '/'
def word(s):
    return len(s) >= 1 and len(s) <= 64 and oneof(LOWER + UPPER + '_.-', s) and oneof(LOWER + UPPER + '_', s[0])
BASE = {'ipv4': ipv4, 'cidr': cidr, 'macaddr': macaddr, 'fqdn': fqdn, 'abspath': abspath, 'word': word}
# no recursion in the language: levels are written out by a worklist
def check(path, t, v):
    work = [(path, t, v)]
    for _ in range(1000000):
        if not work:
            return v
        path, t, v1 = work.pop()
        k = t['k']
        if k == 's':
            if type(v1) != 'string' or not inr(t['lo'], t['hi'], len(v1)):
                fail(path + ': string')
        elif k == 'l':
            if type(v1) != 'int' or not inr(t['lo'], t['hi'], v1):
                fail(path + ': long')
        elif k == 'b':
            if type(v1) != 'bool':
                fail(path + ': boolean')
        elif k == 'L':
            if type(v1) != 'list' or not inr(t['lo'], t['hi'], len(v1)):
                fail(path + ': list')
            for x in v1:
                work.append((path, t['t'], x))
        elif k == 'D':
            if type(v1) != 'dict' or not inr(t['lo'], t['hi'], len(v1)):
                fail(path + ': dict')
            for x, y in v1.items():
                work.append((path + '/' + x, t['t'], y))
        elif t['n'] == 'port':
            if type(v1) != 'int' or not inr(1, 65535, v1):
                fail(path + ': port')
        elif t['n'] in BASE:
            if type(v1) != 'string' or not BASE[t['n']](v1):
                fail(path + ': ' + t['n'])
        else:
            if type(v1) != 'dict':
                fail(path + ': record')
            left = len(v1)
            for f in SCHEMA[t['n']]:
                key = f['key']
                if key in v1:
                    left -= 1
                elif f['d'] != None:
                    v1[key] = f['d']
                elif f['need']:
                    fail(path + '/' + key + ': missing')
                else:
                    continue
                work.append((path + '/' + key, f['t'], v1[key]))
            if left:
                fail(path + ': extra field')
            if t['n'] == 'firewall' and not v1['enabled'] and v1['rules']:
                fail(path + ': with')
    fail('too large')
def ip(n):
    n += 167772160
    return '%d.%d.%d.%d' % (n >> 24, (n >> 16) & 255, (n >> 8) & 255, n & 255)
def hex2(n):
    return HEX[n // 16 % 16] + HEX[n % 16]
def mac(n, k):
    return '02:00:%s:%s:%s:%s' % (hex2(k), hex2(n // 65536), hex2(n // 256), hex2(n))
def two(n):
    return '0%d' % n if n < 10 else str(n)
def three(n):
    return '0' + two(n) if n < 100 else str(n)
def esc(t):
    return t.replace('-', '_2d')
"""
STAR_OS = r"""load('lib.star', 'ip', 'mac', 'two', 'three', 'esc')
load('hw.star', 'SVC')
PACKS = @PACKS@
def os(i, role, c, hardware, relations):
    def pk(a):
        return {'version': '%d.%d-%d' % (1 + a % 7, a % 10, 1 + i % 5), 'arch': 'x86_64', 'repos': ['base', 'updates']}
    users = {}
    for u in range(60):
        n = 'user' + two(u)
        users[n] = {'uid': 1000 + u, 'gid': 100 + u % 10, 'home': '/home/' + n, 'shell': '/bin/bash'}
    groups = {}
    for g in range(10):
        m = []
        for u, d in users.items():
            if d['gid'] == 100 + g:
                m.append(u)
        groups['grp' + two(g)] = {'gid': 100 + g, 'members': m}
    interfaces = {}
    for x, dev in enumerate(['eth0', 'eth1']):
        interfaces[dev] = {'device': dev, 'ip': ip(i + x * 65536), 'netmask': '255.0.0.0', 'mac': mac(i, x)}
        if c['mtu'] != 1500:
            interfaces[dev]['mtu'] = c['mtu']
    interfaces['eth0']['gateway'] = c['gateway']
    packages = {}
    for a, n in enumerate(PACKS):
        packages[esc(n)] = pk(a)
    for a in range(30, 200):
        packages[esc('pkg-' + three(a))] = pk(a)
    repositories = []
    for n in ['base', 'updates', 'extras', 'site']:
        r = {'name': n, 'url': 'repo/' + c['cluster'] + '/' + n}
        if n == 'site':
            r['priority'] = 10
        repositories.append(r)
    rules = []
    for a in range(200):
        r = {'port': 1 + (i * 131 + a * 37) % 65535, 'proto': 'tcp' if a % 2 == 0 else 'udp',
             'source': ip((i * 256 + a * 7) % 16777216) + '/32', 'comment': 'rule %s of h%d' % (three(a), i)}
        if a % 5 == 0:
            r['action'] = 'drop'
        rules.append(r)
    services = {'mon': {'name': 'mon', 'port': 9100}, 'agent': {'name': 'agent', 'after': ['mon']}}
    for n, p in SVC[role]:
        services[n] = {'name': n, 'port': p, 'after': ['network', 'mon']}
    mounts = [{'device': '/dev/sda1', 'path': '/', 'fs': 'xfs', 'options': ['defaults'], 'pass': 1}]
    for a in range(1, 40):
        mounts.append({'device': '/dev/vg0/lv' + two(a), 'path': '/data/' + two(a), 'fs': 'xfs', 'options': ['noatime', 'nodev']})
    h = {
        'name': 'h%d' % i, 'cluster': c['cluster'], 'role': role,
        'sysctl': {'values': {'net.key' + two(a): a * 1000 + i % 7 for a in range(50)}},
        'network': {'hostname': 'h%d' % i, 'domain': c['domain'], 'ip': ip(i), 'gateway': c['gateway'], 'interfaces': interfaces,
                    'routes': [{'dest': '10.%d.0.0/16' % a, 'via': c['gateway'], 'metric': a * 10} for a in range(20)],
                    'resolver': {'servers': ['10.0.0.53', '10.0.1.53'], 'search': [c['domain'], 'site.org']}},
        'hardware': hardware,
        'software': {'packages': packages, 'repositories': repositories},
        'security': {'firewall': {'policy': 'drop', 'rules': rules}, 'users': users, 'groups': groups,
                     'sshd': {'root': False, 'ciphers': ['aes256-gcm', 'chacha20', 'aes128-ctr']}},
        'services': services,
        'cron': [{'minute': (i + a * 3) % 60, 'hour': a % 24, 'command': '/usr/libexec/job%d' % a, 'user': 'root'} for a in range(20)],
        'ntp': {'servers': ['10.0.0.123', '10.0.1.123'], 'drift': '/var/lib/ntp/drift'},
        'syslog': {'targets': [{'host': 'log1.' + c['domain']}, {'host': 'log2.' + c['domain'], 'port': 6514}], 'level': c['level']},
        'mounts': mounts, 'relations': relations,
    }
    if role == 'storage':
        h['exports'] = [{'path': '/export/' + three(a), 'clients': [ip(a * 256 + b) + '/26' for b in [0, 64, 128, 192]]} for a in range(100)]
    return h
""".replace("@PACKS@", repr(PACKS))
STAR_HW = r"""load('lib.star', 'mac', 'two')
SVC = @SVC@
def small(i, **kw):
    cpu = {'model': 'A-2100', 'cores': 16, 'mhz': 2500}
    b = {'serial': 'none', 'cpus': [cpu, dict(cpu)], 'memory': {'size': 64}, 'disks': {'sda': {'size': 960, 'kind': 'ssd', 'label': 'system'}},
         'nics': {'eth0': {'mac': mac(i, 0)}, 'eth1': {'mac': mac(i, 1)}}}
    b.update(kw)
    return b
def big(i, **kw):
    cpu = {'model': 'B-9000', 'cores': 64, 'mhz': 2500}
    b = small(i)
    b.update({'cpus': [cpu, dict(cpu)], 'memory': {'size': 1024, 'slots': 32},
              'disks': {'sd' + two(a): {'size': 4000 + a, 'kind': 'hdd'} for a in range(12)}})
    b.update(kw)
    return b
""".replace("@SVC@", repr(SVC))


def star_host(i, serial, tail=""):
    k = i % 4
    refs = sorted(set(range(max(0, i - 8), i)) | ({(i - 1) // 2} if i else set()) | ({k} if i >= 4 else set()))
    s = ("load('lib.star', 'check')\nload('hw.star', '%s')\nload('os.star', 'os')\nload('cluster/c%d.star', 'C')\n"
         % ("big" if i % 3 == 0 else "small", k))
    s += "".join("load('h%d.star', h%d='profile')\n" % (j, j) for j in refs)
    rel = []
    if i:
        j = (i - 1) // 2
        rel.append("'parent': {'name': h%d['name'], 'ip': h%d['network']['ip']}" % (j, j))
        rel.append("'siblings': [%s]" % ", ".join("h%d['network']['ip']" % j for j in range(max(0, i - 8), i)))
    if i >= 4:
        rel.append("'head': {'name': h%d['name'], 'ip': h%d['network']['ip']}" % (k, k))
    s += ("profile = check('h%d', {'k': 'n', 'n': 'host'}, os(%d, '%s', C, %s(%d, serial='%s', "
          "location={'room': 'R%d', 'rack': %d, 'slot': %d}), {%s}))\n"
          % (i, i, ROLES[i % 6], "big" if i % 3 == 0 else "small", i, serial, i % 3, 1 + i // 48 % 99, 1 + i % 48, ", ".join(rel)))
    return s + tail


def serials(n, seed):
    x, out = seed, []
    for _ in range(n):
        x = (x * 6364136223846793005 + 1442695040888963407) % M
        out.append("SN%07d" % ((x >> 33) % 10000000))
    return out


def main():
    n, seed, out = int(sys.argv[1]), int(sys.argv[2]), sys.argv[3]
    ser = serials(n, seed)
    put(out + "/pan/site/types/base.pan", PAN_BASE)
    names = list(TYPES)
    for f in names:
        put(out + "/pan/site/types/%s.pan" % f, pan_types(f, TYPES[f], names[:-1] if f == "top" else ["base"]))
    for f, text in PAN.items():
        put(out + "/pan/%s.pan" % f, text)
    sd = schema_data()
    put(out + "/jsonnet/schema.libsonnet", json.dumps(sd, indent=1) + "\n")
    put(out + "/jsonnet/lib.libsonnet", JN_LIB)
    put(out + "/jsonnet/os.libsonnet", JN_OS)
    put(out + "/jsonnet/hw.libsonnet", JN_HW)
    put(out + "/nix/schema.nix", nixlit(sd) + "\n")
    put(out + "/nix/lib.nix", NIX_LIB)
    put(out + "/nix/os.nix", NIX_OS)
    put(out + "/nix/hw.nix", NIX_HW)
    put(out + "/star/schema.star", "SCHEMA = " + starlit(sd) + "\n")
    put(out + "/star/lib.star", STAR_LIB)
    put(out + "/star/os.star", STAR_OS)
    put(out + "/star/hw.star", STAR_HW)
    for k in range(4):
        put(out + "/pan/cluster/c%d.pan" % k, pan_cluster(k))
        c = {"cluster": "c%d" % k, "domain": "c%d.site.org" % k, "gateway": "10.255.%d.1" % k,
             "mtu": 9000 if k == 0 else 1500, "level": "debug" if k == 3 else "info"}
        put(out + "/jsonnet/cluster/c%d.libsonnet" % k, json.dumps(c) + "\n")
        put(out + "/nix/cluster/c%d.nix" % k, nixlit(c) + "\n")
        put(out + "/star/cluster/c%d.star" % k, "C = " + starlit(c) + "\n")
    put(out + "/jsonnet/all.jsonnet",
        "{\n" + "".join("  'h%d.json': import 'h%d.jsonnet',\n" % (i, i) for i in range(n)) + "}\n")
    put(out + "/nix/all.nix", "{\n" + "".join("  h%d = import ./h%d.nix;\n" % (i, i) for i in range(n)) + "}\n")
    for i in range(n):
        put(out + "/pan/h%d.pan" % i, pan_host(i, ser[i]))
        put(out + "/jsonnet/h%d.jsonnet" % i, jn_host(i, ser[i]))
        put(out + "/nix/h%d.nix" % i, nix_host(i, ser[i]))
        put(out + "/star/h%d.star" % i, star_host(i, ser[i]))
        put(out + "/expect/h%d.json" % i, json.dumps(model(i, ser[i]), sort_keys=True, separators=(",", ":")) + "\n")


if __name__ == "__main__":
    main()
