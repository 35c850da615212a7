"""Prints the text of a source file that decides the compiled code, without comments, contracts and proofs.

`tools/modules.py` hashes this text. So a change of a comment or of a clause needs no new modules.

| Source | Left out |
|---|---|
| Rattle | comments; the clauses `requires` and `ensures`; imports, fields, members and clauses that begin with `ghost`; the attribute `tactic` |
| C | comments |
| Python | comments and docstrings |

Runs of white space count as one space, in C and Python only within a line. The tool keeps any text that it has no rule for. It ends with
a message if a text is not closed, or has a character that code does not have.

`--check` compares the texts of a written sample with those that are expected.
"""

import argparse
import io
import itertools
import os
import re
import sys
import tokenize

import argument_types

RATTLE = re.compile(
    r"""
      (?P<space>\s+)
    | (?P<line>//[^\n]*)
    | (?P<block>/\*)
    | (?P<string>[bc]?r(?P<fence>\#*)".*?"(?P=fence) | [bc]?"(?:\\.|[^"\\])*")
    | (?P<char>b?'(?:\\u\{\w+\}|\\x\w\w|\\.|[^\\'])')
    | (?P<lifetime>'\w+)
    | (?P<word>\w+)
    | (?P<operator>[-!%&*+/<=>|^:.@?~$])
    | (?P<mark>[(){}\[\];,\#])
    """,
    re.VERBOSE | re.DOTALL,
)
COMMENT_MARK = re.compile(r"/\*|\*/")
# What a block of contracts or proofs can have besides its brackets, in which brackets do not count.
OPAQUE = r'//[^\n]*|"(?:\\.|[^"\\])*"'
BRACES = re.compile(OPAQUE + r"|(?P<open>\{)|(?P<close>\})", re.DOTALL)
BRACKETS = re.compile(OPAQUE + r"|(?P<open>\[)|(?P<close>\])", re.DOTALL)
CLAUSES = ("requires", "ensures")
CLAUSE_HEAD = re.compile(r"\*?\s*(?:[\w\u00ab\u00bb]+\s*)?(?=\{)")
GHOST_USE = re.compile(r"\s+use\b[^;]*;")
GHOST_NAME = re.compile(r"\s+\w+")
GHOST_PART = re.compile(r"\s*(?::|=|\bby\b)\s*(?=\{)")
GHOST_END = re.compile(r"\s*[;,]")
TACTIC = re.compile(r"#!?(?=\[\s*tactic\b)")
# Words of code. A clause that has one is not closed where its author meant.
CODE_WORD = re.compile(r"\b(?:fn|pub|impl|struct|enum|match)\b")
VISIBILITIES = (["pub"], ["pub", "(", "crate", ")"])
C_PART = re.compile(r"""(?P<comment>//[^\n]*|/\*.*?\*/)|"(?:\\.|[^"\\])*"|'(?:\\.|[^'\\])*'""", re.DOTALL)


class Unreadable(Exception):
    """A text that the tool cannot read."""


def refuse(text, at, why):
    line = text.count("\n", 0, at) + 1
    raise Unreadable(f"line {line}: {why}")


def behind_comment(text, at):
    """Returns the end of the block comment that begins at `at`. Such comments nest."""
    depth = 0
    for mark in COMMENT_MARK.finditer(text, at):
        depth += 1 if mark[0] == "/*" else -1
        if not depth:
            return mark.end()
    return refuse(text, at, "a comment is not closed")


def behind_block(text, at, brackets):
    """Returns the end of the block of contracts or proofs whose first bracket is at `at`."""
    depth = 0
    for mark in brackets.finditer(text, at):
        depth += bool(mark["open"]) - bool(mark["close"])
        if not depth:
            word = CODE_WORD.search(text, at, mark.end())
            return refuse(text, at, f"a block has the word `{word[0]}`") if word else mark.end()
    return refuse(text, at, "a block is not closed")


def behind_clause(text, at):
    """Returns the end of the clause whose first word ends at `at`."""
    head = re.compile(r"\s*").match(text, at).end()
    found = CLAUSE_HEAD.match(text, head)
    return behind_block(text, found.end(), BRACES) if found else refuse(text, at, "a clause has no block")


def behind_ghost(text, at):
    """Returns the end of the import, field, member or clause whose first word, `ghost`, ends at `at`."""
    imports = GHOST_USE.match(text, at)
    if imports:
        return imports.end()
    name = GHOST_NAME.match(text, at)
    part = name and GHOST_PART.match(text, name.end())
    if not part:
        refuse(text, at, "a name and a block, or an import, have to follow `ghost`")
    while part:
        end = behind_block(text, part.end(), BRACES)
        part = GHOST_PART.match(text, end)
    closed = GHOST_END.match(text, end)
    return closed.end() if closed else end


def drop_visibility(words):
    """Removes `pub` or `pub(crate)` from the end of the words."""
    for visibility in VISIBILITIES:
        if words[-len(visibility) :] == visibility:
            del words[-len(visibility) :]


def of_rattle(text):
    """Returns the words of the code. Operators that touch each other are one word."""
    words, at, is_joined = [], 0, False
    while at < len(text):
        found = RATTLE.match(text, at)
        if not found:
            refuse(text, at, f"code does not have the character {text[at]!r}")
        kind, word, end = found.lastgroup, found[0], found.end()
        kind = "string" if kind == "fence" else kind
        if kind in ("space", "line"):
            is_joined = False
        elif kind == "block":
            end, is_joined = behind_comment(text, at), False
        elif kind == "word" and word in CLAUSES:
            end, is_joined = behind_clause(text, end), False
        elif kind == "word" and word == "ghost":
            drop_visibility(words)
            end, is_joined = behind_ghost(text, end), False
        elif word == "#" and TACTIC.match(text, at):
            end, is_joined = behind_block(text, TACTIC.match(text, at).end(), BRACKETS), False
        elif kind == "operator" and is_joined:
            words[-1] += word
        else:
            words.append(word)
            is_joined = kind == "operator"
        at = end
    return " ".join(words)


def without_blanks(text):
    """Returns the lines that are not blank. Within a line, runs of white space are one space, but for those in front."""
    lines = (re.sub(r"(?<=\S)\s+", " ", line.rstrip()) for line in text.splitlines())
    return "\n".join(line for line in lines if line.strip())


def of_c(text):
    return without_blanks(C_PART.sub(lambda part: " " if part["comment"] else part[0], text))


def is_docstring(before, token, after):
    """Returns whether a token is a statement of its own."""
    starts = before is None or before.type in (tokenize.NEWLINE, tokenize.INDENT, tokenize.DEDENT)
    return token.type == tokenize.STRING and starts and after.type == tokenize.NEWLINE


def of_python(text):
    """Returns the code. It cuts the text, since versions of Python differ in their tokens."""
    try:
        tokens = [token for token in tokenize.generate_tokens(io.StringIO(text).readline) if token.type != tokenize.NL]
    except (SyntaxError, tokenize.TokenError) as error:
        raise Unreadable(f"no Python: {error}") from error
    comments = [token for token in tokens if token.type == tokenize.COMMENT]
    code = [token for token in tokens if token.type != tokenize.COMMENT]
    docstrings = [token for before, token, after in zip([None, *code], code, code[1:]) if is_docstring(before, token, after)]
    line_starts = [0, *itertools.accumulate(len(line) for line in io.StringIO(text))]
    kept, at = [], 0
    for token in sorted([*comments, *docstrings], key=lambda token: token.start):
        kept.append(text[at : line_starts[token.start[0] - 1] + token.start[1]])
        at = line_starts[token.end[0] - 1] + token.end[1]
    return without_blanks("".join([*kept, text[at:]]))


READERS = {".rt": of_rattle, ".c": of_c, ".py": of_python}


def of_file(path):
    """Returns the text of a file. Raises `Unreadable` with the file's name."""
    name = os.path.relpath(path)
    try:
        return READERS[path.suffix](path.read_text(encoding="utf-8"))
    except KeyError as error:
        raise Unreadable(f"{name}: no rule for files of this kind") from error
    except UnicodeDecodeError as error:
        raise Unreadable(f"{name}: no UTF-8") from error
    except Unreadable as error:
        raise Unreadable(f"{name}: {error}") from error


RATTLE_SAMPLE = r"""
//! A counter.
#![tactic(auto)]

ghost use Rattle.std.specs.Prelude.{◌≡◌, ◌+◌, [], ℕ};
ghost use Rattle.counter.specs.declared.Fault.TheVariants as faults;

/// Counts /* nothing */ "in a comment.
#[derive(Clone, Copy)]
pub struct Counter<'a> {
    pub text: &'a [u8],
    /* a comment /* in a comment */ ends */
    pub ghost value: { List ℕ } by { coded_list ℕ },
    ghost least: { value ≤ 7 },
}

impl Model for Counter<'_> {
    pub(crate) ghost view = { λ c. record { text = c.text; bytes = codes "}" } };
}

impl Counter<'_> {
    #[tactic(auto, using(crate::proofs::A::b))]
    fn find(&self, until: u8) -> bool
        ghost top: { ℕ }
        requires { until ≤ top } // a brace: }
        ensures* lends { sem 𝓛 (f result' (λ x. x)) }
        ensures found { result ≡ IsTrue self.now }
    {
        prove!(until <= 9);
        let quotes = [b'"', b'\'', b'{', b'\x7f'];
        self.text.iter().any(|byte| requires { pre } { *byte == until && quotes[0] < b'/' }) || r#"//""# == "/*\""
    }
}
"""
RATTLE_TEXT = (
    "# [ derive ( Clone , Copy ) ] pub struct Counter < 'a > { pub text : & 'a [ u8 ] , } impl Model for Counter < '_ > { } "
    "impl Counter < '_ > { fn find ( & self , until : u8 ) -> bool { prove ! ( until <= 9 ) ; "
    r"""let quotes = [ b'"' , b'\'' , b'{' , b'\x7f' ] ; self . text . iter ( ) . any ( | byte | """
    r"""{ * byte == until && quotes [ 0 ] < b'/' } ) || r#"//""# == "/*\"" } }"""
)
C_SAMPLE = '/* Adds.\n * Twice. */\n#define A 1 // one\nint  f(void) { return A + \'"\'; } char *t = "/* no */";\n'
C_TEXT = '#define A 1\nint f(void) { return A + \'"\'; } char *t = "/* no */";'
PYTHON_SAMPLE = '"""Head.\n\nMore."""\n\nX = "#"  # a comment\n\n\ndef f():\n    """Doc."""\n    # a comment\n    return f"{X}" """no doc"""\n'
PYTHON_TEXT = 'X = "#"\ndef f():\n    return f"{X}" """no doc"""'
SAMPLES = [(of_rattle, RATTLE_SAMPLE, RATTLE_TEXT), (of_c, C_SAMPLE, C_TEXT), (of_python, PYTHON_SAMPLE, PYTHON_TEXT)]
UNREADABLE = ["ensures { a", "ensures a b", "/* a", "ghost a;", "let a ≡ b;", "ensures { a fn b() {} }", 'let a = "b']


def is_refused(text):
    try:
        of_rattle(text)
    except Unreadable:
        return True
    return False


def check():
    """Prints each text of the sample that differs. Returns the status."""
    differences = [f"of {text!r} stays {read(text)!r}, not {wanted!r}" for read, text, wanted in SAMPLES if read(text) != wanted]
    differences += [f"{text!r} is read" for text in UNREADABLE if not is_refused(text)]
    for difference in differences:
        print(f"compiled_text: {difference}")
    return 1 if differences else 0


def main():
    parser = argparse.ArgumentParser(description=__doc__, formatter_class=argparse.RawDescriptionHelpFormatter)
    parser.add_argument("--check", action="store_true", help="check the tool on its sample")
    parser.add_argument("files", metavar="FILE", type=argument_types.file, nargs="*", help="a source file")
    given = parser.parse_args()
    try:
        for file in given.files:
            print(of_file(file))
    except Unreadable as error:
        sys.exit(f"compiled_text: {error}")
    sys.exit(check() if given.check else 0)


if __name__ == "__main__":
    main()
