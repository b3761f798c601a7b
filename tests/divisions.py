"""No whole number is divided but by a constant power of two.

tests/divisions.py sources: in every .rt file of a crate's src/, `/`, `%`, `/=` and `%=` stand only before a literal that is a power of two, or the name of a
constant that the same file gives as such a literal; `/` may also stand between two float literals. tests/divisions.py code FILE..: the machine code of an
archive or object has no divide instruction, has no division routine, and calls nothing but C's memory functions. Each test is first tried on made-up files,
each wrong form among them, so that it can fail."""

import pathlib
import re
import subprocess
import sys
import tempfile

TOKEN = re.compile(
    r"""(?P<skipped>\s+|//[^\n]*|b?r(?P<hashes>\#*)".*?"(?P=hashes)|b?"(?:\\.|[^"\\])*"|b'(?:\\[^']+|\\'|[^'\\])'|'\w+)
    |(?P<float>\d[\d_]*(?:\.(?:\d[\d_]*)?(?![\w.])|(?:\.\d[\d_]*)?[eE][+-]?[\d_]+|(?:\.\d[\d_]*)?_*f(?:32|64)))
    |(?P<whole>(?:0x[\da-fA-F_]+|0o[0-7_]+|0b[01_]+|\d[\d_]*)(?:[iu](?:8|16|32|64|size))?)
    |(?P<name>\w+)
    |(?P<sign>/\*|[/%]=?|::|\.\.|.)""",
    re.VERBOSE | re.DOTALL,
)
COMMENT = re.compile(r"/\*|\*/")
# In a contract, which is antt.
CLAUSE = re.compile(r"""--[^\n]*|"(?:\\.|[^"\\])*"|'["{}]'|[{}]""", re.DOTALL)
DIVIDE = re.compile(r"v?[fius]*div\w*|fprem1?")
ROUTINE = re.compile(r"_*(?:aeabi_)?[us]?[ilfd]*(?:div|mod|divmod)(?:[qhsdt]i|[hsdtx][fc])?\d?")
CALLED = {"memcpy", "memmove", "memset", "memcmp"}


class Unreadable(Exception):
    pass


def end_of(source, at, marks, opening, closing):
    """Behind the closing mark of what opens there; it may hold others."""
    depth = 0
    for mark in marks.finditer(source, at):
        depth += (mark[0] == opening) - (mark[0] == closing)
        if depth == 0 and mark[0] == closing:
            return mark.end()
    raise Unreadable(f"{source.count(chr(10), 0, at) + 1}: not closed")


def tokens_of(source):
    """Kind, text and line of each token, without comments, strings, contracts and imports for contracts."""
    at, tokens = 0, []
    while at < len(source):
        token = TOKEN.match(source, at)
        kind, text = token.lastgroup, token[0]
        if text == "/*":
            at = end_of(source, at, COMMENT, "/*", "*/")
        elif kind == "name" and text in ("ghost", "requires", "ensures"):
            imports = re.compile(r"ghost\s+use\b[^;]*;").match(source, at)
            at = imports.end() if imports else end_of(source, at, CLAUSE, "{", "}")
        else:
            if kind != "skipped":
                tokens.append((kind, text, source.count("\n", 0, at) + 1))
            at = token.end()
    return tokens + [("end", "", 0)] * 6


def is_power(token):
    """Whether it is a whole number's literal, and a power of two."""
    if token[0] != "whole":
        return False
    digits = re.match(r"0x[\da-fA-F_]+|0[ob][\d_]+|[\d_]+", token[1])[0].replace("_", "")
    value = int(digits, 0 if digits[1:2] in ("x", "o", "b") else 10)
    return value > 0 and value & (value - 1) == 0


def constants_of(tokens):
    """The file's own constants that are literal powers of two: given outside of any braces, once, and imported nowhere. None in a file with modules inside."""
    texts = [text for _, text, _ in tokens]
    if any(texts[i : i + 3 : 2] == ["mod", "{"] for i in range(len(texts))):
        return set()
    depth, given, imported = 0, [], set()
    for i, text in enumerate(texts):
        depth += (text == "{") - (text == "}")
        if text == "const":
            good = depth == 0 and texts[i + 2] == ":" and texts[i + 4] == "=" and is_power(tokens[i + 5]) and texts[i + 6] == ";"
            given.append((texts[i + 1], good))
        if text == "use":
            imported.update(texts[i : texts.index(";", i)])
    names = [name for name, _ in given]
    return {name for name, good in given if good and names.count(name) == 1} - imported


def faults_of(tokens):
    """The lines of divisions by anything but a constant power of two."""
    constants = constants_of(tokens)
    for i, (_, sign, line) in enumerate(tokens):
        if sign not in ("/", "%", "/=", "%="):
            continue
        divisor, behind = tokens[i + 1], tokens[i + 2][1]
        by_power = behind not in ("(", "[", ".", "::") and (is_power(divisor) or divisor[0] == "name" and divisor[1] in constants)
        of_floats = sign == "/" and divisor[0] == "float" and tokens[i - 1][0] == "float" and tokens[i - 2][1] != "."
        if not by_power and not of_floats:
            yield line


def faults_in_source(path):
    try:
        return [f"{path}:{line}" for line in faults_of(tokens_of(path.read_text()))]
    except Unreadable as fault:
        return [f"{path}:{fault}"]


def printed_by(*command):
    return subprocess.run(command, check=True, capture_output=True, text=True).stdout


def faults_in_code(file):
    """Its divide instructions, the division routines that it has, and what it calls that it should not."""
    code = printed_by("objdump", "-d", "--no-show-raw-insn", file)
    instructions = re.findall(r"^ *[\da-f]+:\t(?:(?:\{\w+\}|addr32|bnd|data16|lock|notrack|rep\w*|rex\S*|[cdefgs]s) +)*(\w+)", code, re.MULTILINE)
    has = re.findall(r" [A-TV-Za-tv-z] (\S+)$", printed_by("nm", file), re.MULTILINE)
    calls = re.findall(r" U (\S+)$", printed_by("nm", file), re.MULTILINE)
    if not instructions or not has:
        return [f"{file}: nothing to look at"]
    found = [name for name in instructions if DIVIDE.fullmatch(name)] + [name for name in has if ROUTINE.fullmatch(name)]
    return [f"{file}: {name}" for name in found + [name for name in calls if name not in CALLED]]


WRONG_SOURCES = [
    "let a = n / d;",
    "let a = n % d;",
    "n /= d;",
    "n %= d;",
    "let a = n / 10;",
    "let a = n % 0x11;",
    "let a = n / 1_000u64;",
    "let a = n / 0;",
    "let a = n / -8;",
    "let a = n / (d);",
    "let a = n / *d;",
    "let a = n / TEN;",
    "let a = n / SUM;",
    "let a = n / TWICE;",
    "let a = n / INNER;",
    "let a = n / RENAMED;",
    "let a = n / sizes::EIGHT;",
    "let a = n / u64::MAX;",
    "let a = n / EIGHT(n);",
    "let a = n / eight();",
    "let a = n / 8.0;",
    "let a = x / 2.0;",
    "let a = x % 2.0;",
    "let a = n / b'/' as u64;",
    "let a = /* by 8: / 8 */ n / d; // / 8",
    "let a = n\n    /\n    d;",
    "mod inside { const EIGHT: u64 = 8; } let a = n / EIGHT;",
]
RIGHT_SOURCES = [
    "let a = n / 2;",
    "let a = n % 0x8000_0000_0000_0000;",
    "let a = n / 0b100u64 + n % 1_6 - n / 0o10;",
    "n /= 4; n %= 8;",
    "let a = n / EIGHT % EIGHT;",
    "let a = 0.0 / 0.0 + 1. / 3.0e2 - 1e3 / 2.0f64;",
    "for i in n / 2..n {}",
    "// n / d",
    "/* n / d /* n % d */ n / 10 */",
    'let a = b"/ d % d \\" / d"; let b = b\'/\'; let c = br"/ d \\";',
]
AROUND = """ghost use Rattle.std.specs.Prelude.{{◌≡◌, ◌/◌, ◌%◌}};
use sizes::TEN as RENAMED;
const TEN: u64 = 10;
const SUM: u64 = 4 + 1;
const EIGHT: u64 = 0x0_8;
const RENAMED: u64 = 8;
const TWICE: u64 = 8;
impl Size {{
    const TWICE: u64 = 10;
    const INNER: u64 = 8;
}}
fn other(n: u64, INNER: u64) -> u64
    requires clause {{ INNER / 3 ≡ n % d -- n / d " {{
        × byte "}}" ≡ n / d }}
    requires* other {{ ⌜ n ≡ n / d ⌝ }}
    ensures {{ result ≡ f {{n = n}} (n / d) }}
{{
    {}
}}
"""
WRONG_CODE = [
    "unsigned long f(unsigned long n, unsigned long d) { return n / d; }",
    "long f(long n, long d) { return n % d; }",
    "unsigned f(unsigned n, unsigned d) { return n / d; }",
    "double f(double n, double d) { return n / d; }",
    "double fmod(double n, double d); double f(double n, double d) { return fmod(n, d); }",
    "unsigned __int128 f(unsigned __int128 n, unsigned __int128 d) { return n % d; }",
    "unsigned long __udivdi3(unsigned long n, unsigned long d) { return n - d; }",
]
RIGHT_CODE = ["unsigned long f(unsigned long n) { return n / 8; }", "unsigned long divide(unsigned long n) { return n % 8; }"]


def try_sources(folder):
    path = folder / "tried.rt"
    for form in WRONG_SOURCES + RIGHT_SOURCES:
        path.write_text(AROUND.format(form))
        if len(faults_in_source(path)) != (form in WRONG_SOURCES):
            yield f"the test of sources {'passes' if form in WRONG_SOURCES else 'refuses'}: {form}"


def try_code(folder):
    for text in WRONG_CODE + RIGHT_CODE:
        (folder / "tried.c").write_text(text)
        subprocess.run(["gcc", "-O1", "-c", folder / "tried.c", "-o", folder / "tried.o"], check=True)
        if bool(faults_in_code(folder / "tried.o")) != (text in WRONG_CODE):
            yield f"the test of code {'passes' if text in WRONG_CODE else 'refuses'}: {text}"


def main(kind, *files):
    """Answers the exit status."""
    if kind == "sources":
        files, attempt, look = sorted(pathlib.Path("crates").glob("*/src/**/*.rt")), try_sources, faults_in_source
    else:
        attempt, look = try_code, faults_in_code
    with tempfile.TemporaryDirectory() as folder:
        faults = list(attempt(pathlib.Path(folder)))
    faults += [fault for file in files for fault in look(file)] if files else ["no file to look at"]
    for fault in faults:
        print(f"tests/divisions.py: {fault}", file=sys.stderr)
    print(f"tests/divisions.py: {len(files)} files looked at, {len(faults)} faults")
    return faults != []


sys.exit(main(*sys.argv[1:]))
