"""Calls that `stamped replay` makes, and what it prints."""

PLAIN = '"readers":127,"versions":1000'
WIDE = '"layout":2,"readers":127,"versions":1000'


def replay(calls, line, limits=PLAIN):
    return ("replay", f'{{"calls":[{calls}],{limits}}}', line)


def refused(text, line):
    return ("replay", text, f"stamped: {line}")


def no_call(call):
    return refused(f'{{"calls":[{call}],"readers":1,"versions":0}}', "not a script: call 0")


CALLS_FROM_THE_OPENING = [
    replay("", '{"replies":[],"word":256}'),
    replay('["optimistic"],["validate",256]', '{"replies":[256,"yes"],"word":256}'),
    replay(
        '["optimistic"],["try_write"],["validate",256],["unlock_write",384],["validate",384]',
        '{"replies":[256,384,"no","done","yes"],"word":512}'),
    replay(
        '["optimistic"],["try_write"],["optimistic"],["validate",256],["unlock_write",384],["validate",384],'
        '["try_write"],["validate",384]',
        '{"replies":[256,384,0,"no","done","yes",640,"no"],"word":640}'),
    replay(
        '["try_read"],["read_count"],["is_read_locked"],["try_unlock_read"],["try_unlock_read"],["is_write_locked"]',
        '{"replies":[257,{"count":1},"yes","yes","no","no"],"word":256}'),
    replay('["try_read"],["read_count"],["to_write",257]', '{"replies":[257,{"count":1},384],"word":384}',
           '"readers":1,"versions":1'),
]

CONVERSIONS_IN_ONE_STEP = [
    replay(
        '["try_read"],["try_read"],["to_write",257],["unlock_read",257],["to_write",258]',
        '{"replies":[257,258,0,"done",384],"word":384}'),
    replay(
        '["try_write"],["to_read",384],["to_read",513],["to_optimistic",513],["to_write",512]',
        '{"replies":[384,513,513,512,640],"word":640}'),
    replay(
        '["try_read"],["to_optimistic",257],["validate",257],["to_read",256]',
        '{"replies":[257,256,"yes",257],"word":257}'),
]

STAMPS_THAT_DO_NOT_MATCH_CHANGE_NOTHING = [
    replay(
        '["try_write"],["unlock_write",256],["unlock_write",640],["unlock_write",0]',
        '{"replies":[384,"mismatch","mismatch","mismatch"],"word":384}'),
    replay(
        '["validate",0],["validate",128],["unlock",256],["unlock",9223372036854775808],["to_read",640]',
        '{"replies":["no","no","mismatch","mismatch",0],"word":256}'),
    replay(
        '["try_read"],["try_read"],["unlock",257],["unlock",257],["unlock",257]',
        '{"replies":[257,258,"done","done","mismatch"],"word":256}'),
    replay(
        '["try_write"],["unlock_read",384],["unlock_write",257],["to_write",385],["to_optimistic",512],'
        '["to_read",256],["validate",512],["unlock",384]',
        '{"replies":[384,"mismatch","mismatch",0,0,0,"no","done"],"word":512}'),
    replay('["unlock",18446744073709551615]', '{"replies":["mismatch"],"word":256}'),
]

LIMITS_END_VERSIONS_AND_READERS = [
    replay(
        '["try_write"],["unlock",384],["try_write"],["to_write",512],["validate",512]',
        '{"replies":[384,"done",0,0,"yes"],"word":512}', '"readers":127,"versions":1'),
    replay(
        '["try_write"],["unlock_write",384],["try_write"]',
        '{"replies":[384,"done",0],"word":512}', '"readers":127,"versions":1'),
    replay('["write_lock"],["read_lock"],["write_lock"]', '{"replies":[0,257,0],"word":257}',
           '"readers":127,"versions":0'),
    replay(
        '["try_read"],["to_read",256],["to_write",257],["try_unlock_write"],["try_unlock_write"],["read_lock"],'
        '["to_write",513]',
        '{"replies":[257,0,384,"yes","no",513,0],"word":513}', '"readers":1,"versions":1'),
    replay("", '{"replies":[],"word":256}', '"readers":127,"versions":36028797018963966'),
    replay(
        ",".join(['["try_read"]'] * 128 + ['["try_write"]']),
        '{"replies":[' + ",".join(str(257 + place) for place in range(127)) + ',0,0],"word":383}'),
    replay(
        ",".join(['["try_read"]'] * 65_536),
        '{"replies":[' + ",".join(str(131_073 + place) for place in range(65_535)) + ',0],"word":196607}',
        '"layout":2,"readers":65535,"versions":1000'),
]

A_CALL_THAT_WAITS_IS_NAMED = [
    replay('["try_read"],["write_lock"]', "stamped: call 1 waits"),
    replay('["try_read"],["write_lock"]', "stamped: call 1 waits", '"readers":1,"versions":1'),
    replay('["read_lock"],["read_lock"]', "stamped: call 1 waits", '"readers":1,"versions":1000'),
    replay('["try_write"],["validate",384],["read_lock"],["write_lock"]', "stamped: call 2 waits"),
    replay(",".join(['["try_read"]'] * 12 + ['["write_lock"]']), "stamped: call 12 waits"),
]

A_TEXT_IS_REFUSED_BEFORE_A_CALL_OF_IT_WAITS = [
    replay('["try_read"],["write_lock"],["get"]', "stamped: not a script: call 2", limits)
    for limits in (PLAIN, '"readers":1,"versions":1')
]

LAYOUT_TWO_HAS_WIDER_NUMBERS = [
    replay(
        '["optimistic"],["try_write"],["optimistic"],["validate",131072],["unlock_write",196608],'
        '["validate",196608],["try_write"],["validate",196608]',
        '{"replies":[131072,196608,0,"no","done","yes",327680,"no"],"word":327680}', WIDE),
    replay('["try_write"],["to_read",196608]', '{"replies":[196608,262145],"word":262145}', WIDE),
    replay('["unlock",0],["try_write"]', '{"replies":["mismatch",196608],"word":196608}',
           '"layout":2,"readers":1,"versions":1'),
]

NO_JSON = [
    refused(text, "not json") for text in (
        "", "  ", '{"calls":[', "{} {}", '{"calls":[],"readers":1,"versions":1}]',
        '{"calls":[],"readers":1,"versions":1,}', '{"calls":[],"readers":01,"versions":1}', b'"\xff"', '"\\ud800"',
        "1e400", "{'calls':[]}", "[" * 128 + "]" * 128, " " * 16_777_216)
] + [refused(" " * count, "input over 16777216 bytes") for count in (16_777_217, 20_000_000)]

OTHER_KEYS = [
    refused(text, "not a script: top") for text in (
        "{}", "[]", "null", '{"calls":[],"readers":1}', '{"calls":[],"layout":1,"readers":1}',
        '{"calls":[],"readers":1,"versions":1,"width":0}',
        '{"calls":[],"layout":1,"readers":1,"versions":1,"width":0}',
        '{"Calls":[],"readers":1,"versions":1}', '{"calls":5,"readers":0,"version":1}', "[" * 127 + "]" * 127)
]

THE_FIRST_FAULT_OF_THE_FIELDS = [
    refused('{"calls":[],"layout":0,"readers":0,"versions":1}', "not a script: layout"),
    refused('{"calls":[],"layout":3,"readers":1,"versions":1}', "not a script: layout"),
    refused('{"calls":[],"layout":"1","readers":1,"versions":1}', "not a script: layout"),
    refused('{"calls":[],"layout":null,"readers":1,"versions":1}', "not a script: layout"),
    refused('{"calls":[],"layout":2.0,"readers":1,"versions":1}', "not a script: layout"),
    refused('{"calls":5,"readers":-1,"versions":"1"}', "not a script: readers"),
    refused('{"calls":5,"readers":0,"versions":"1"}', "over a limit: readers"),
    refused('{"calls":[],"readers":128,"versions":1}', "over a limit: readers"),
    refused('{"calls":[],"layout":2,"readers":65536,"versions":1}', "over a limit: readers"),
    refused('{"calls":[],"layout":2,"readers":0,"versions":1}', "over a limit: readers"),
    refused('{"calls":5,"readers":1,"versions":null}', "not a script: versions"),
    refused('{"calls":5,"readers":1,"versions":36028797018963967}', "over a limit: versions"),
    refused('{"calls":[],"readers":127,"versions":36028797018963967}', "over a limit: versions"),
    refused('{"calls":[],"layout":2,"readers":1,"versions":70368744177663}', "over a limit: versions"),
    refused('{"calls":5,"readers":1,"versions":0}', "not a script: calls"),
    refused('{"calls":{},"readers":1,"versions":0}', "not a script: calls"),
    refused('{"calls":[["try_write"],["get"],0],"readers":1,"versions":0}', "not a script: call 1"),
    refused('{"calls":[' + ",".join("0" * 640_000) + '],"readers":1,"versions":0}', "not a script: call 0"),
    refused('{"calls":[' + ",".join("0" * 640_001) + '],"readers":1,"versions":0}', "over a limit: calls"),
] + [
    refused(f'{{"calls":{calls},"readers":{readers},"versions":1000}}', "over a limit: readers")
    for calls in ("[]", "5") for readers in (0, 128)
]

NO_CALLS_OF_THE_LOCK = [
    no_call(call) for call in (
        "0", "{}", "[]", "[1]", '"try_write"', '["Try_write"]', '["lock"]', '["get"]', '["put",[1]]',
        '["put_if",[1],[2]]', '["try_write",1]', '["unlock"]', '["unlock",1,2]', '["unlock",-1]', '["unlock",-0]',
        '["unlock",1.0]', '["unlock",1e2]', '["unlock",18446744073709551616]', '["unlock","384"]',
        '["unlock",[0,0]]', '["unlock",null]')
]

REPLAYS = (
    CALLS_FROM_THE_OPENING + CONVERSIONS_IN_ONE_STEP + STAMPS_THAT_DO_NOT_MATCH_CHANGE_NOTHING
    + LIMITS_END_VERSIONS_AND_READERS + A_CALL_THAT_WAITS_IS_NAMED + A_TEXT_IS_REFUSED_BEFORE_A_CALL_OF_IT_WAITS
    + LAYOUT_TWO_HAS_WIDER_NUMBERS + NO_JSON + OTHER_KEYS + THE_FIRST_FAULT_OF_THE_FIELDS + NO_CALLS_OF_THE_LOCK)
