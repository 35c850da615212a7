"""Runs `make test`, which proves nothing, or `make verify`, which proves everything.

`test` compiles tests, libraries and program without a proof, and takes some ten minutes on two processors. `verify` proves every
crate from nothing, tries the wrong bodies, and runs all tests over the proved code. Both go on after a failure, name what they leave
out and why, and end with a line `N passed, M failed`. CONTRIBUTING.md says what each step checks.
"""

import argparse
import os
import sys

import argument_types
import jobs
import packages
import steps
from rlibs import TOP, tell_other_logic
from steps import Step

UNPROVED = TOP / "build" / "unproved"
PROGRAM = TOP / "crates" / "wlb" / "out" / "wlb"
ARCHIVES = [TOP / "crates" / name / "out" for name in ("wlb_hub", "wlb_client")]
BUILD = TOP / "build"
COMPILER = ("rt", "cc", "objcopy")
# Name of the step that makes `UNPROVED`.
UNPROVED_BUILD = "C libraries and program, not proved"


def tool(name, *words):
    """Returns the words that run a tool of the repository."""
    return [sys.executable, TOP / "tools" / f"{name}.py", *words]


def javascript_tests(outcomes):
    """Returns the words that run the JavaScript tests. Without the results of `UNPROVED_BUILD` they leave out some tests."""
    built = outcomes[UNPROVED_BUILD]
    made = ["--program", UNPROVED / "wlb", "--libraries", UNPROVED] if built.passed and not built.failed else []
    return tool("check_js", *made)


TEXTS = [
    Step("documents", tool("check_documents"), ("git",)),
    Step("definitions", tool("definitions", "--check")),
    Step("mutants fit", tool("mutants", "--fit")),
    Step("planted bodies fit", tool("planted", "--fit")),
]

TEST = [
    *TEXTS,
    Step("text that decides the modules", tool("compiled_text", "--check")),
    Step("modules of JavaScript are current", tool("modules", "check")),
    Step("tests of the crates, not proved", tool("try_tests"), ("rt",)),
    Step(UNPROVED_BUILD, tool("unproved", "--sanitize", "--program", "--no-modules", UNPROVED), COMPILER, is_early=jobs.count() > 1),
    Step("examples", tool("check_program", UNPROVED / "wlb"), (), (UNPROVED_BUILD,)),
    Step("scripts of the sim", tool("check_sim", UNPROVED / "wlb"), (), (UNPROVED_BUILD,)),
    Step("vectors", tool("check_vectors", "--program", UNPROVED / "wlb"), (), (UNPROVED_BUILD,)),
    Step("charts", tool("chart", "--check", "--program", UNPROVED / "wlb"), (), (UNPROVED_BUILD,)),
    Step("processes", tool("check_processes", UNPROVED / "wlb"), ("cc",), (UNPROVED_BUILD,)),
    Step("C programs", tool("check_library", "--unproved", UNPROVED), ("pkg-config",), (UNPROVED_BUILD,)),
    Step("JavaScript", javascript_tests, ("node",)),
]

VERIFY = [
    Step("proofs", ["rt", "ci"], ("rt",)),
    *TEXTS,
    Step("mutants", tool("mutants", "--gate"), ("rt",), ("proofs",)),
    Step("wrong bodies that a test catches", tool("planted"), ("rt",), ("proofs",)),
    Step("refused memory", tool("refuse", "--gate"), ("cc",), ("proofs",)),
    Step("program", tool("check_program", PROGRAM), (), ("proofs",)),
    Step("vectors", tool("check_vectors", "--program", PROGRAM), (), ("proofs",)),
    Step("charts", tool("chart", "--check", "--program", PROGRAM), (), ("proofs",)),
    Step("scripts of the sim", tool("check_sim", PROGRAM), (), ("proofs",)),
    Step("processes", tool("check_processes", PROGRAM), ("cc",), ("proofs",)),
    Step("C libraries", ["make", "-s", "lib"], COMPILER, ("proofs",)),
    Step("C programs", tool("check_library"), ("pkg-config",), ("C libraries",)),
    Step("modules of JavaScript", tool("modules", "compare", *ARCHIVES), (), ("C libraries",)),
    Step("JavaScript", tool("check_js", "--program", PROGRAM, "--libraries", BUILD), ("node",), ("C libraries",)),
]

PLANS = {"test": TEST, "verify": VERIFY}


def main():
    parser = argparse.ArgumentParser(description=__doc__, formatter_class=argparse.RawDescriptionHelpFormatter)
    parser.add_argument("plan", choices=PLANS, help="what to run")
    given = parser.parse_args()
    if given.plan == "verify":
        argument_types.need_command("rt", packages.hint("rt"))
    if packages.has("rt"):
        tell_other_logic()
    os.environ["RT_JOBS"] = str(jobs.count())
    if given.plan == "test":
        print("Nothing is proved here: `make verify` proves everything.")
    return steps.run_all(PLANS[given.plan])


if __name__ == "__main__":
    sys.exit(main())
