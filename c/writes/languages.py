"""The calls and the codes in Rust and Python."""
from .layout import WIDTH, head


def in_rust(parameter):
    if parameter.is_handle:
        return f"{parameter.name}: *mut Raw"
    if parameter.word in ("bytes", "memory"):
        return f"{parameter.name}: *{'const' if parameter.word == 'bytes' else 'mut'} u8"
    if parameter.word == "words":
        return f"{parameter.name}: *const u64"
    return f"{parameter.name}: {parameter.word.replace('*', '*mut ')}"


def raw_rust(calls, codes):
    lines = []
    for it in calls:
        its, answer = list(map(in_rust, it.parameters)), " -> i32;" if it.answers else ";"
        whole = f"    pub(crate) fn {it.name}({', '.join(its)}){answer}"
        if len(whole) > WIDTH:
            whole = "\n".join([f"    pub(crate) fn {it.name}(", *(f"        {one}," for one in its), f"    ){answer}"])
        lines.append(whole)
    texts = "\n".join(f'        {it.number} => "{it.text}",' for it in codes)
    return RAW_HEAD % (head("//!"), texts) + "\n".join(lines) + "\n}\n"


RAW_HEAD = """%s
#![allow(dead_code)]
use std::ffi::c_void;
use std::ptr;

/// A handle with its layout in C, which is a struct with one pointer.
#[repr(C)]
pub(crate) struct Raw {
    at: *mut c_void,
}

impl Raw {
    pub(crate) const EMPTY: Raw = Raw { at: ptr::null_mut() };
}

pub(crate) const OK: i32 = 0;

/// Returns what a code means, in words.
pub(crate) fn text(code: i32) -> &'static str {
    match code {
%s
        _ => "unknown code",
    }
}

extern "C" {
"""


def calls_python(calls):
    lines = "\n".join(" ".join([it.name, *it.words]) for it in calls)
    return f'"""The calls of libfelter.so, with the types of their arguments."""\n\n{head("#")}\nCALLS = """\n{lines}\n"""\n'


def codes_python(codes):
    numbers = "\n".join(f"    {it.name} = {it.number}" for it in codes)
    texts = "\n".join(f'    {it.number}: "{it.text}",' for it in codes)
    return (f'"""The codes of refusals, and what they mean in words."""\n\n{head("#")}\nimport enum\n\n\n'
            f'class Number(enum.IntEnum):\n    """The numbers of refusals, as in felter.h."""\n\n{numbers}\n\n\n'
            f"TEXTS = {{\n{texts}\n}}\n")
