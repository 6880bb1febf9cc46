"""Numbers that `stamped stamp` tells as stamps, and words that are no order."""

TOLD = {
    384: "write 1", 257: "read 0 1", 256: "optimistic 0", 128: "none", 0: "none", 385: "none",
    9_223_372_036_854_775_808: "none", 9_223_372_036_854_775_424: "write 36028797018963966",
    9_223_372_036_854_775_552: "optimistic 36028797018963966",
    9_223_372_036_854_775_679: "read 36028797018963966 127", 9_223_372_036_854_775_680: "none",
}
TOLD_WIDE = {
    384: "none", 131_072: "optimistic 0", 196_607: "read 0 65535", 196_608: "write 1", 196_609: "none",
    9_223_372_036_854_579_200: "write 70368744177662",
}

STAMPS = (
    [(f"stamp {stamp}", "", line) for stamp, line in TOLD.items()]
    + [(f"stamp --layout 1 {stamp}", "", line) for stamp, line in TOLD.items()]
    + [(f"stamp --layout 2 {stamp}", "", line) for stamp, line in TOLD_WIDE.items()]
    + [("stamp 000384", "", "write 1"), ("stamp --layout 2 07", "", "none"),
       ("stamp 18446744073709551615", "", "none")])

WORDS = [
    (words, "", "stamped: bad command line") for words in (
        [], [""], ["stamp"], ["stamp", "18446744073709551616"], ["stamp", "x"], ["stamp", ""], ["stamp", "+5"],
        ["stamp", "-5"], ["stamp", " 5"], ["stamp", "0x5"], ["stamp", "5", "6"], ["stamp", "--layout", "2"],
        ["stamp", "--layout", "3", "5"], ["stamp", "--layout", "02", "5"], ["stamp", "--layout", "2", "+5"],
        ["stamp", "--layout", "2", "5", "6"], ["stamp", "5", "--layout", "2"], ["Replay"], ["replay", "5"],
        ["run", "--reports"], ["--report", "run"], ["run", "--report", "--report"], ["replay", "--report"],
        ["check", "--report"], ["migrate", "--report"], ["check", ""], ["", "check"], ["stamp", "5 "],
        ["stamp", "--layout", "2", "5", ""], ["check"] * 8, ["stamp", "--layout", "2", "5"] * 2)
]

# Command lines that need no input, and their lines.
UNREAD = [
    (["stamp", "384"], "write 1"), (["stamp", "--layout", "2", "384"], "none"), ([], "stamped: bad command line"),
    (["check", ""], "stamped: bad command line"), (["replay", "5"], "stamped: bad command line"),
]
