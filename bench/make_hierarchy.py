#!/usr/bin/env python3
"""Writes a BLIF text for the benchmark of networks: make_hierarchy.py KIND [COUNT]

The counts are those that fill a file of 64 MiB, or that reach a limit of a network. What each is for:

chain_models     a chain of models, each with one instance of the next: no walk over models may recurse
nested_models    the longest chain whose network is accepted, with an inverter at its end
unbound_outputs  many instances of a model with many outputs that none of them binds
doubling         seventy models, each with two instances of the next: the count of paths passes 2^64
tables_last_first  a chain of tables, the last one first: levels and loops
table_loop       one loop of tables
inputs           one model with millions of inputs
signals          the largest accepted network of inverters, half of them inside instances
"""
import sys

out = sys.stdout


def chain_models(count):
    for k in range(count - 1):
        out.write(f".model {k:x}\n.subckt {k + 1:x}\n.end\n")
    out.write(f".model {count - 1:x}\n.end\n")


def nested_models(count):
    out.write(".model 0\n.inputs a\n.outputs f\n.subckt 1 a=a f=f\n.end\n")
    for k in range(1, count - 1):
        out.write(f".model {k:x}\n.inputs a\n.outputs f\n.subckt {k + 1:x} a=a f=f\n.end\n")
    out.write(f".model {count - 1:x}\n.inputs a\n.outputs f\n.names a f\n0 1\n.end\n")


def unbound_outputs(count):
    out.write(".model m\n")
    for _ in range(count):
        out.write(".subckt b\n")
    out.write(".end\n.model b\n.outputs")
    for k in range(count * 33 // 40):
        out.write(f" {k:x}")
    out.write("\n.end\n")


def doubling(count):
    for k in range(count - 1):
        out.write(f".model m{k}\n.subckt m{k + 1}\n.subckt m{k + 1}\n.end\n")
    out.write(f".model m{count - 1}\n.end\n")


def tables_last_first(count):
    out.write(f".model m\n.inputs t0\n.outputs t{count - 1}\n")
    for k in range(count - 1, 0, -1):
        out.write(f".names t{k - 1} t{k}\n")
    out.write(".end\n")


def table_loop(count):
    out.write(".model m\n.outputs t0\n")
    for k in range(count):
        out.write(f".names t{(k + 1) % count} t{k}\n")
    out.write(".end\n")


def inputs(count):
    out.write(".model m\n.inputs")
    for k in range(count):
        out.write(f" {k:x}")
    out.write("\n.end\n")


def signals(count):
    half = count // 4
    out.write(".model m\n.inputs a\n.outputs f\n.names a n0\n0 1\n")
    for k in range(1, half):
        out.write(f".names n{k - 1} n{k}\n0 1\n")
    for k in range(half, half + count // 5):
        out.write(f".subckt b a=n{k - half} f=n{k}\n")
    out.write(f".names n{half + count // 5 - 1} f\n0 1\n.end\n")
    out.write(".model b\n.inputs a\n.outputs f\n.names a f\n0 1\n.end\n")


KINDS = {
    "chain_models": (chain_models, 2030000),
    "nested_models": (nested_models, 99990),
    "unbound_outputs": (unbound_outputs, 4000000),
    "doubling": (doubling, 70),
    "tables_last_first": (tables_last_first, 200000),
    "table_loop": (table_loop, 200000),
    "inputs": (inputs, 7500000),
    "signals": (signals, 222000),
}

if len(sys.argv) not in (2, 3) or sys.argv[1] not in KINDS:
    sys.exit(__doc__)
make, most = KINDS[sys.argv[1]]
make(int(sys.argv[2]) if len(sys.argv) == 3 else most)
