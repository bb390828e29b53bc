#!/usr/bin/env python3
"""The C functions are declared in three places: where they are proved, in the header, and in the Rust crate. Are the three the same?

Run it in any folder. It names what differs and exits with 1, or says how many functions agree.
"""
import os
import re
import sys

ROOT = os.path.join(os.path.dirname(os.path.abspath(__file__)), '..', '..')
# Proved as the 64-bit patterns of doubles, declared as doubles for those who call: the same memory.
DOUBLES = {('dimetumble_dijkstra_path_impl', 'dist'), ('dimetumble_dijkstra_path_f64', 'dist')}
C = {'usize': 'size_t', 'u8': 'uint8_t', 'u16': 'uint16_t', 'u32': 'uint32_t', 'u64': 'uint64_t', 'i32': 'int32_t', 'i64': 'int64_t', 'f64': 'double'}


def text(path):
    with open(os.path.join(ROOT, path), encoding='utf-8') as f:
        return f.read()


def listed(parameters):
    """The parameters between commas, one space between words."""
    return [' '.join(p.split()) for p in parameters.split(',') if p.strip()]


def in_c(parameter):
    """The C parameters of one that is proved: a slice is a pointer and a length, a place a pointer."""
    name, kind = parameter.split(': ')
    m = re.fullmatch(r'(&mut |&)?(\[)?(\w+)\]?', kind)
    reference, slice_, element = m.groups()
    if slice_:
        const = 'const ' if reference == '&' else ''
        return [f'{const}{C[element]} *{name}', f'size_t {name}_len']
    return [f'{C[element]} *{name}' if reference else f'{C[element]} {name}']


def called(function, parameter):
    """A parameter that is proved, as those who call have it."""
    name, kind = parameter.split(': ')
    return f'{name}: {kind.replace("[u64]", "[f64]")}' if (function, name) in DOUBLES else parameter


proved = {name: (listed(ps), r) for name, ps, r in re.findall(r'#\[unsafe\(no_mangle\)\]\s*pub extern "C" fn (\w+)(?:<.a>)?\(([^)]*)\) -> (\w+)', text('crates/dimetumble_c/src/lib.rt').replace("&'a ", '&'))}
header = {name: (listed(ps), r) for r, name, ps in re.findall(r'(\w+) (dimetumble_\w+)\(([^)]*)\);', re.sub(r'/\*.*?\*/', '', text('include/dimetumble.h'), flags=re.S))}
rust = {name: listed(ps) for name, ps in re.findall(r'native!\(\w+ = (\w+)\(([^)]*)\)\);', text('bindings/rust/src/native.rs'))}

wrong = []
if not proved:
    wrong.append('no C function is proved')
for where, names in (('the header', header), ('the Rust crate', rust)):
    wrong += [f'{name} is not in {where}' for name in proved if name not in names]
    wrong += [f'{name} is in {where} alone' for name in names if name not in proved]
for name, (parameters, result) in proved.items():
    wrong += [f'{p} of {name} is proved, and no patterns' for f, p in DOUBLES if f == name and f'{p}: &mut [u64]' not in parameters]
    parameters = [called(name, p) for p in parameters]
    wanted = ([c for p in parameters for c in in_c(p)], C[result])
    if name in header and header[name] != wanted:
        wrong.append(f'{name} in the header: {header[name]} and not {wanted}')
    if name in rust and rust[name] != parameters:
        wrong.append(f'{name} in the Rust crate: {rust[name]} and not {parameters}')
for line in wrong:
    print(line)
if wrong:
    sys.exit(1)
print(f'{len(proved)} C functions are declared alike in all three places')
