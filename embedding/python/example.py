#!/usr/bin/env python3
"""cudf_check from Python: checks an answer and a malformed problem, both explained; counts and ranks;
makes a CNF, and checks proofs that there is no solution, or no better one; goes through a report by pages.

Prints embedding/expected.txt.

usage: CUDF_CHECK_LIBRARY=lib/libcudf_check.so.1 python3 embedding/python/example.py
"""
import cudf_check

# car 1 is installed and needs a newer wheel than the one that is installed with it
PROBLEM = """\
package: car
version: 1
depends: wheel > 2
installed: true

package: wheel
version: 2
installed: true

package: wheel
version: 3

request: no upgrade
install: car
"""
CAR = "package: car\nversion: 1\ninstalled: true\n"
WHEEL_2 = "package: wheel\nversion: 2\ninstalled: true\n"
WHEEL_3 = "package: wheel\nversion: 3\ninstalled: true\n"
OLD_WHEEL, NEW_WHEEL = f"{CAR}\n{WHEEL_2}", f"{CAR}\n{WHEEL_3}"
BOTH_WHEELS = f"{CAR}\n{WHEEL_2}\n{WHEEL_3}"
FAULTY = "package: car\nversion: one\n\nrequest:\n"
# no wheel is new enough; and what a SAT solver may say of the CNF
UNSOLVABLE = """\
package: car
version: 1
depends: wheel > 2

package: wheel
version: 2

request:
install: car
"""
PROOF = "3 0 2 1 0\n"

PACKAGES, LINES = 10_000, 1_000


def broken(count):
    """A problem of packages that are installed and need what isn't there. As its own answer it is no solution."""
    numbers = range(1, count + 1)
    return "".join(f"package: p{n}\nversion: 1\ndepends: none\ninstalled: true\n\n" for n in numbers) + "request:\n"


def pages_of(problem, solution, limit):
    """The pages of a listing."""
    page = cudf_check.check(problem, solution, limit=limit)
    yield page
    while page.more_after:
        page = cudf_check.check(problem, solution, after=page.more_after, limit=limit)
        yield page


def refute():
    encoded = cudf_check.cnf(UNSOLVABLE)
    print(f"\ncnf: status {encoded.status:d}")
    for place, (name, version) in enumerate(encoded.packages, 1):
        print(f"c p{place} {name} {version}")
    print("p cnf", len(encoded.packages), len(encoded.clauses))
    for clause in encoded.clauses:
        print(*clause, 0)

    refuted = cudf_check.refute(UNSOLVABLE, PROOF)
    print(f"\nrefute: status {refuted.status:d}")
    for told in refuted.reasons:
        package = f"{told.name} {told.version} " if told.name else ""
        print(f"{told.key} {package}line {told.line}: {told.text}")
    if refuted.status == cudf_check.Status.YES:
        print("no solution exists")

    # an answer that removes nothing can't be bettered: the proof isn't needed
    refuted = cudf_check.refute(PROBLEM, "", better_than=NEW_WHEEL, criteria="-removed")
    print(f"\nbetter: status {refuted.status:d}")
    for aim, count in refuted.counts:
        print(aim, count)
    if refuted.status == cudf_check.Status.YES:
        print("no better solution exists")


def main():
    print(f"cudf_check {cudf_check.version()}")

    checked = cudf_check.check(PROBLEM, OLD_WHEEL, explain=True)
    print(f"\ncheck: status {checked.status:d}")
    for told in checked.violations:
        print(f"{told.key} {told.name} {told.version} line {told.line}: {told.text}; {told.added}")
    print(f"solution {checked.verdict}")

    linted = cudf_check.lint(FAULTY, explain=True)
    fault = linted.fault
    where = f"{fault.kind} on line {fault.line} of the {fault.whose}"
    print(f"\nlint: status {linted.status:d}, {where}: {fault.text}; {fault.added}")

    scored = cudf_check.score(PROBLEM, NEW_WHEEL)
    print(f"\nscore: status {scored.status:d}")
    for name, count in scored.counts.items():
        print(name, count)
    for track, numbers in scored.vectors.items():
        print(track, *numbers)
    print(f"solution {scored.verdict}")

    ranked = cudf_check.rank(PROBLEM, [OLD_WHEEL, BOTH_WHEELS, NEW_WHEEL], "-changed,-touched")
    print(f"\nrank: status {ranked.status:d}")
    for told in ranked.ranks:
        print(told.rank, "solution", told.place, told.verdict, *(f"{aim} {count}" for aim, count in told.counts))

    refute()

    many = broken(PACKAGES)
    pages = list(pages_of(many, many, LINES))
    together = [violation for page in pages for violation in page.violations]
    are = "are" if together == cudf_check.check(many, many).violations else "aren't"
    print(f"\npages: {len(pages)} of at most {LINES} lines, which together {are} the report of {len(together)}")


if __name__ == "__main__":
    main()
