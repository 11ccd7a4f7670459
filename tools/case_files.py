"""The packed cases of a test program, and the line that it prints when none of them differs."""


def write_cases(crate, cases):
    """Writes crates/CRATE/data/cases.bin, one packed case behind the other, and crates/CRATE/stdout."""
    with open("crates/%s/data/cases.bin" % crate, "wb") as f:
        f.write(b"".join(cases))
    with open("crates/%s/stdout" % crate, "w", encoding="ascii") as f:
        f.write("%d cases compared\n" % len(cases))
    print(len(cases), "cases")
