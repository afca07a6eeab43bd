"""What a build compiles and the workspace made of it does not see: lines of skipped groups, and operands that are dropped."""

import os
import re
import subprocess

MARKER = re.compile(r'# (\d+) "((?:[^"\\]|\\.)*)"')
DROPPED = re.compile(r"\b(__attribute__|__attribute|__asm__|__asm|asm|_Alignas)\b(\s*(?:volatile|__volatile__|goto|inline)\b)*\s*\(")
WORD = re.compile(r'"(?:[^"\\]|\\.)*"|\'(?:[^\'\\]|\\.)*\'|\b\d\w*|[A-Za-z_]\w*')
# Attributes whose numbers count the parameters of a function.
COUNTING = re.compile(r"\b(?:__)?(?:access|alloc_align|alloc_size|fd_arg|fd_arg_read|fd_arg_write|format|format_arg|nonnull"
                      r"|null_terminated_string_arg)(?:__)?\s*\(([^()]*)\)")
# What stands before a string in which an attribute names a function or an object; and before the one that gives a declarator its name.
NAMING = re.compile(r'\b(?:__)?(?:alias|ifunc|symver|weakref)(?:__)?\s*\(\s*(?:"[^"]*"\s*)*\Z')
DECLARED = re.compile(r"(?:\A|[;{}])(?![^;{}]*\bregister\b)[^;{}]*[\w)\]]\s*\Z")
# What attributes are called, and the words that stand in them.
ATTRIBUTES = set("""access alias aligned alloc_align alloc_size always_inline artificial assume_aligned bounded btf_tag cdecl
 cleanup cold common const constructor copy deprecated designated_init destructor diagnose_if dllexport dllimport error externally_visible
 fallthrough fastcall fd_arg flatten format format_arg gnu_inline hot ifunc interrupt leaf malloc may_alias mode ms_abi ms_struct naked
 no_address_safety_analysis no_icf no_instrument_function no_profile_instrument_function no_reorder no_sanitize no_sanitize_address
 no_sanitize_thread no_sanitize_undefined no_split_stack no_stack_protector noclone nocf_check noinit noinline noipa nonnull nonstring
 noplt noreturn nothrow objc_root_class optimize optnone overloadable packed patchable_function_entry persistent pure regparm retain
 returns_nonnull returns_twice scalar_storage_order section sentinel simd stack_protect stdcall symver sysv_abi target target_clones
 tls_model transparent_union unavailable unused used vector_size visibility warn_if_not_aligned warn_unused_result warning weak weakref
 zero_call_used_regs printf scanf strftime strfmon gnu_printf gnu_scanf gnu_strftime NULL read_only read_write write_only none
 sizeof int char long short unsigned signed void struct union enum volatile memory cc QI HI SI DI TI byte word""".split())


def lines_of(entry):
    """The lines that have tokens when the build preprocesses the unit, by the file where they stand; None where the
    compiler fails."""
    run = subprocess.run(entry.compiling(["-E", "-dD", "-w"]), cwd=entry.directory, capture_output=True, text=True,
                         errors="surrogateescape", check=False)
    if run.returncode:
        return None
    found, file, at = {}, None, 0
    for line in run.stdout.splitlines():
        marker = MARKER.match(line)
        if marker:
            at = int(marker.group(1))
            name = re.sub(r"\\(.)", r"\1", marker.group(2))
            file = found.setdefault(os.path.join(entry.directory, name), set())
            continue
        if file is not None and line.strip():
            file.add(at)
        at += 1
    return found


def skipped_of(said):
    """The ranges of lines that `skipped` prints, by the paths of the workspace."""
    found = {}
    for line in said.splitlines():
        path, _, lines = line.rpartition(":")
        first, _, last = lines.partition("-")
        found.setdefault(path, []).append((int(first), int(last)))
    return found


def without_comments(text):
    """The text with comments, and the strings' insides, blank, so that lines stay where they are."""
    def blank(found):
        part = found.group(0)
        return part if part[0] in "\"'" else re.sub(r"[^\n]", " ", part)
    return re.sub(r'"(?:[^"\\\n]|\\.)*"|\'(?:[^\'\\\n]|\\.)*\'|/\*.*?\*/|//[^\n]*', blank, text, flags=re.S)


def _operand(text, at):
    """The text between the parentheses of which the first stands at `at`."""
    depth = 0
    for end in range(at, len(text)):
        depth += {"(": 1, ")": -1}.get(text[end], 0)
        if depth == 0:
            return text[at + 1:end]
    return text[at + 1:]


def dropped_names(text, everything=False):
    """Line, word and name for each name that stands in an operand that the kit's define lines drop, also in a string by which it goes for
    the assembler, and for each number there that counts the parameters of a function; with `everything` words of attributes too, and operands in directives, and no numbers."""
    text = without_comments(text)
    for found in DROPPED.finditer(text):
        operand = _operand(text, found.end() - 1)
        before = text[text.rfind("\n", 0, found.start()) + 1:found.start()]
        if not everything and re.match(r"\s*#\s*(define|undef|ifdef|ifndef|if|elif)\b", before):
            continue
        counts = [it.span(1) for it in COUNTING.finditer(operand)]
        label = "asm" in found.group(1) and DECLARED.search(text[max(0, found.start() - 400):found.start()]) and re.fullmatch(r'\s*"[A-Za-z_]\w*"\s*', operand)
        for word in WORD.finditer(operand):
            name = word.group(0)
            if name[0] == '"' and (label or NAMING.search(operand[:word.start()])):
                for part in re.findall(r"[A-Za-z_]\w*", name):
                    yield text.count("\n", 0, found.end() + word.start()) + 1, found.group(1), part
            plain = name.strip("_")
            if name[0].isdigit() and (everything or not any(first <= word.start() < end for first, end in counts)):
                continue
            if name[0] in "\"'" or not everything and (plain in ATTRIBUTES or not plain):
                continue
            yield text.count("\n", 0, found.end() + word.start()) + 1, found.group(1), name
