"""The functions that are inline in C: c/felter_inline.h, and c/felter_exports.c, which makes functions of them."""
import re

from .header import BUFFERS, inline_of
from .layout import head, listed


def signature(name, parameters):
    first = f"FELTER_GUARD int32_t {name}("
    return listed(first, [it.in_c for it in parameters] or ["void"], ") {", " " * len(first))


def guard(call):
    """The inline function that C calls for an export: it refuses NULL, and counts the call in a checked build."""
    lines, names = [signature("felter_guarded" + call.name.removeprefix("felter"), call.parameters)], []
    if not call.answers:
        lines[0] = lines[0].replace("FELTER_GUARD int32_t", "static inline void")
    for it, after in zip(call.parameters, [*call.parameters[1:], None]):
        names.append(it.name)
        if not call.answers:
            lines.append(f"    if (!{it.name}) return;")
        elif it.is_handle:
            lines.append(f'    if (!{it.name}) return felter_refuse("{call.name}", FELTER_NO_HANDLE);')
        elif it.word in BUFFERS.values():
            missing = f"!{it.name} && {after.name}"
            lines.append(f'    if ({missing}) return felter_refuse("{call.name}", FELTER_NULL_POINTER);')
        elif it.word.startswith("*") or it.word == "memory":
            lines.append(f'    if (!{it.name}) return felter_refuse("{call.name}", FELTER_NULL_POINTER);')
    handles = [it.name if it.word == "*handle" else f"&{it.name}->handle" for it in call.handles]
    if handles:
        lines.append(f'    FELTER_ENTER{len(handles)}("{call.name}", {", ".join(handles)});')
    first = ("    int32_t code = " if call.answers else "    ") + call.name + "("
    lines.append(listed(first, names, ");", " " * len(first)))
    if handles:
        lines.append(f"    FELTER_LEAVE{len(handles)}();")
    return "\n".join(lines + ["    return code;"] * call.answers + ["}"])


def drawing(call):
    """The form of a call that makes something in which the number is drawn."""
    parameters = call.parameters[1:]
    first = f"    return felter_guarded{call.name.removeprefix('felter')}("
    made = listed(first, ["felter_next_number()", *(it.name for it in parameters)], ");", " " * len(first))
    return "\n".join([signature(call.name.removesuffix("_numbered"), parameters), made, "}"])


def inline_header(calls, codes):
    named = [it for it in calls if it.name.endswith("_numbered")]
    texts = [f'    case {it.number}: return "{it.text}";' for it in codes]
    parts = [
        INLINE_HEAD % head("/*"),
        "static inline const char *felter_text(int32_t code) {\n    switch (code) {\n" + "\n".join(texts)
        + '\n    default: return "unknown code";\n    }\n}',
        *map(guard, calls),
        *map(drawing, named),
        INLINE_STANDING,
        "\n".join(f"#define {it.name} felter_guarded{it.name.removeprefix('felter')}" for it in calls),
        "#endif\n",
    ]
    return "\n\n".join(parts)


INLINE_HEAD = """%s
 *
 * A program includes felter.h, which includes this file. For each function of the library there is a function here,
 * which tests for NULL pointers before it calls the library. For a program, the name of a library function is a macro
 * for the function in this file. */
#ifndef FELTER_INLINE_H
#define FELTER_INLINE_H

#define FELTER_GUARD static inline __attribute__((warn_unused_result))

#ifdef FELTER_CHECKED
#include "felter_checked.h"
#else
static inline int32_t felter_refuse(const char *call, int32_t code) {
    (void)call;
    return code;
}
#define FELTER_ENTER1(call, handle) (void)0
#define FELTER_ENTER2(call, handle, other) (void)0
#define FELTER_LEAVE1() (void)0
#define FELTER_LEAVE2() (void)0
#endif

/* The count of the numbers that were drawn. This variable is weak, so all files of a program share it, in C and in C++.
 * But a shared library that includes this header can have a second variable, for example if dlopen loads the library.
 * Then the program and the library draw the same numbers. */
__attribute__((weak)) uint64_t felter_numbers_drawn = 0;

/* Draws the number of the next structure. The numbers are 1, 2, 3 and so on. Any thread may call this. */
static inline uint64_t felter_next_number(void) {
    return __atomic_add_fetch(&felter_numbers_drawn, 1, __ATOMIC_RELAXED);
}"""


INLINE_STANDING = """FELTER_GUARD int32_t felter_standing(felter_producer *producer, felter_consumer *consumer, int32_t *found,
                                     uint64_t *head) {
    uint64_t first = 0, claimed = 0, last = 0, tail = 0;
    uint32_t count = 0;
    int32_t code, why;
    size_t used = 0;
    if (!found || !head) return felter_refuse("felter_standing", FELTER_NULL_POINTER);
    code = felter_guarded_positions(producer, &first, &claimed);
    if (code != FELTER_OK) return code;
    /* No message has room in this buffer, so a message stays. */
    why = felter_guarded_read_batch(consumer, 1, &count, &used, NULL, 0);
    if (why != FELTER_NO_MESSAGE && why != FELTER_SHORT_BUFFER) return why;
    code = felter_guarded_positions(producer, &last, &tail);
    if (code != FELTER_OK) return code;
    *head = last;
    if (why == FELTER_SHORT_BUFFER) *found = FELTER_FOUND_MESSAGE;
    else if (last == first && tail <= first) *found = FELTER_FOUND_NONE;
    else if (last == first && claimed > first) *found = FELTER_FOUND_CLAIM;
    else *found = FELTER_FOUND_CHANGE;
    return FELTER_OK;
}"""


def exports(header):
    its = inline_of(header)
    lines = [EXPORTS_HEAD % head("/*")]
    lines += [f"#define {name} {name.replace('felter_', 'felter_inline_', 1)}" for _, name, _ in its]
    lines += ["#include \"felter.h\""]
    lines += [f"#undef {name}" for _, name, _ in its]
    for answer, name, parameters in its:
        first = f"{answer}{name}("
        whole = listed(first, parameters, ")", " " * len(first))
        names = ", ".join(re.search(r"\w+$", it).group() for it in parameters)
        call = f"    return {name.replace('felter_', 'felter_inline_', 1)}({names});"
        lines += ["", whole + ";", whole + " {", call, "}"]
    return "\n".join(lines) + "\n"


EXPORTS_HEAD = """%s
 *
 * The functions that are inline in felter.h are here functions of the libraries, for programs that load a library
 * without the header. This file is compiled into an object of its own, beside the proved archive. It is tested and not
 * proved. Its constructors draw numbers from the count of the header, since a program and the library share one
 * variable. */
"""
