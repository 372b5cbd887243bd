#!/usr/bin/env python3
"""Counts the places of docs/DESIGN-PASS.md in src/, by patterns over lines, for a commit or for the files as they stand.

usage: python3 tools/design_places.py [COMMIT] [--list]

A line a pattern: the point, what it looks for, how many lines have it. --list prints the lines too.
"""

import glob
import re
import subprocess
import sys

# What stood twice, and differed in a type, a size or a constant: each family by its crates and the names of its functions.
FAMILIES = [
    ("frames", "hex2|hex4|number_at"),
    ("frames", "put_hex2|put_hex4|put_number"),
    ("frames", "put_frame|put_frame2|put_frame4|put_frame6|put_frame8"),
    ("frames", "graph_header|stock_header|header_of"),
    ("frames", "graph_body|stock_body|body_from|body_of"),
    ("frames", "path_shape|barrier_shape|plan_shape|shape_of"),
    ("frames", "store|store_pairs|store_numbers"),
    ("frames|files", "told|no_shape"),
    ("files", "put_numbered|put_arcs|put_pairs|put_lines"),
    ("files", "are_named|are_nodes|are_below"),
    ("search|pairing", "reset_bases|clear|clear_row"),
    ("search", "reach_absorbed|rebase_absorbed"),
    ("search", "birth_after|base_after"),
    ("search", "path_or_reached|path_or_barrier"),
    ("pairing", "budget|budget_in|plan|plan_in"),
    ("pairing", "put_cameras|put_fits"),
    ("kept", "cameras_in|fits_in|kept_in"),
    ("lanes", "answer_graph|stock|budget"),
    ("lanes", "refused"),
    ("lanes", "judge_path|judge_barrier"),
    ("lanes_c", "lanes_graph|lanes_stock|lanes_budget"),
    ("lanes_c", "pack|pack_searched"),
    ("lanes_print", "print_graph|print_stock|print_budget"),
    ("lanes_print", "show|show_verdict"),
]
TYPES = "Header|Shape|Plan|Certificate"

PATTERNS = [
    (1, "own enums", r"^\s*(pub )?enum "),
    (1, "a flag, or the number of a refusal, beside a value", r"^\s*pub (number|found|none): (u8|bool)"),
    (1, "refusals as numbers, made", r"return [1-9][0-9]*;|told\([1-9]|number: [1-9]|refused\([1-9]|no_shape\(|^\s*number: 0,"),
    (1, "refusals as numbers, asked", r"\b(number|early) [!=]= 0"),
    (1, "kinds as numbers", r"^pub const (?!\w*_MOST)[A-Z_]+: usize = 0x[0-9A-F]{2};$|\bkind: usize|\bkinds::[A-Z_]{3}"),
    (1, "flags as numbers", r"\b(flags|seen|used|reached|mark)(: &(mut )?\[(u8|usize)\]| = \[0u(8|size))|0 < (flags|fit|outer|inner)|(seen|used)\[\w+\] == 1|\b(fit|outer|inner): u8|\bmark == 1"),
    (1, "a number in place of none", r"\b(found|n|early) [!=]= 0\b|let c = number|find\(.*\) == 0|birth\w*(\[\w+\])? [!=]= 0\b|0 < birth"),
    (3, "loops that are no `for`", r"^\s*('\w+: |let \w+ = )?(while|loop)\b"),
    (4, "casts", r" as (u8|u16|u32|u64|usize)\b"),
    (4, "written by hand: equality, order, copies, conversions", r"\bfn (wide|narrow|comes_before|at_most|shorter|bit|raise|begins_with|digit_at|put_text|clear|most_said|with_digit)\b"),
    (5, "clauses with a fact on what is lent", r"\b(ArcTable|StockTable|Holds|PairTable|FitTable|PairedFits|Covers|ArcsLent|PathLent)\b.*\}$"),
    (5, "clauses with labels birth via base", r"\blabels birth"),
    (6, "parallel slices in signatures and bodies", r"\b(firsts|seconds|ones|others|tails|heads|lit_firsts|lit_seconds|pair_firsts|pair_seconds|nodes): &(mut )?\["),
    (6, "tables beside one another in a search", r"\b(birth|via|base): &(mut )?\["),
    (6, "a length beside a slice", r"^\s+(count|fits|lit|pairs|arcs): usize,$|, (count|fits|lit|arcs|pairs): usize\b"),
    (7, "function pointers, closures in parameters, dyn", r"\bfn\(|impl Fn|dyn "),
]


def sources(commit):
    if commit is None:
        for path in sorted(glob.glob("crates/*/src/*.rt")):
            with open(path) as file:
                yield path, file.read()
        return
    names = subprocess.run(["git", "ls-tree", "-r", "--name-only", commit], check=True, capture_output=True, text=True).stdout.split()
    for path in names:
        if re.fullmatch(r"crates/[^/]+/src/.*\.rt", path):
            yield path, subprocess.run(["git", "show", f"{commit}:{path}"], check=True, capture_output=True, text=True).stdout


def main():
    words = [word for word in sys.argv[1:] if word != "--list"]
    texts = list(sources(words[0] if words else None))
    lines = [(path, n, line) for path, text in texts for n, line in enumerate(text.split("\n"), 1) if not line.lstrip().startswith("//")]
    counted = []
    for point, name, pattern in PATTERNS:
        counted.append((point, name, [place for place in lines if re.search(pattern, place[2])]))
    twins = []
    for crates, family in FAMILIES:
        found = [place for place in lines if re.match(rf"crates/({crates})/", place[0]) and re.search(rf"\bfn ({family})\b", place[2])]
        twins.extend(found[1:])
    twins.extend([place for place in lines if "read_full(&mut rt.stdin" in place[2]][1:])
    kinds = [place for place in lines if re.search(rf"^pub struct ({TYPES})\b", place[2])]
    counted.insert(7, (2, "functions that stand beside a first one of their family", twins))
    counted.insert(8, (2, "types that stand beside a first one of their family", kinds[1:]))
    for point, name, found in counted:
        print(f"{point}  {name}: {len(found)}")
        if "--list" in sys.argv:
            for path, n, line in found:
                print(f"     {path}:{n}: {line.strip()}")


main()
