"""Scripts that `stamped run` runs, and what it prints."""
import json


def script(threads, steps, width, limits='"readers":127', versions=1000):
    return f'{{{limits},"steps":[{steps}],"threads":[{threads}],"versions":{versions},"width":{width}}}'


def history(entries, width, end='"format":1,"readers":127', versions=1000):
    """Entries as (thread, call, reply, first, last), each with its point at its last step."""
    written = ",".join(
        f'{{"call":{call},"first":{first},"last":{last},"point":{last},"reply":{reply},"thread":{thread}}}'
        for thread, call, reply, first, last in entries)
    return f'{{"entries":[{written}],{end},"versions":{versions},"width":{width}}}'


def run(threads, steps, width, *entries):
    return ("run", script(threads, steps, width), history(entries, width))


def report(threads, steps, width, told, *entries):
    return ("run --report", script(threads, steps, width),
            history(entries, width, f'"format":1,"readers":127{told and chr(44)}{told}'))


def refused(text, line):
    return [(words, text, f"stamped: {line}") for words in ("run", "run --report")]


def no_call(call):
    text = f'{{"readers":1,"steps":5,"threads":[[],[["get"],{call},0]],"versions":1,"width":2}}'
    return refused(text, "not a script: call 1 1")


def limited(text, count, end):
    """A script of empty threads, this many, and how what it is run to ends: each thread may step, and no more do."""
    def stepped(threads):
        return text.replace('"steps":[', '"steps":[' + ",".join(str(thread) for thread in range(threads)))

    kept = [("run", it, f'{{"entries":[],{end}}}') for it in dict.fromkeys((text, stepped(count)))]
    return [*kept, ("run", stepped(count + 1), f"stamped: script refused: no thread at step {count}")]


def fields(line, *texts):
    return [row for text in texts for row in refused(text, line)]


LOST = ('[["try_write"]],[["try_write"],["unlock_write",[1,0]]]', "0,1,1,1,1,0,0", 0)
LOST_ENTRIES = [
    (1, '["try_write"]', "384", 1, 2), (1, '["unlock_write",384]', '"done"', 3, 4), (0, '["try_write"]', "640", 0, 6)]
LOST_IN_TWO = [
    (1, '["try_write"]', "196608", 1, 2), (1, '["unlock_write",196608]', '"done"', 3, 4),
    (0, '["try_write"]', "327680", 0, 6)]
READERS = ('[["try_read"]],[["try_read"],["try_read"]]', "0,1,1,0,1,1,0,0", 0)
READERS_ENTRIES = [
    (1, '["try_read"]', "257", 1, 2), (1, '["try_read"]', "258", 4, 5), (0, '["try_read"]', "259", 0, 7)]
# A lost exchange, and a get between two of a put's stores.
PUT_BESIDE_GET = (
    '[["try_write"],["get"]],[["try_write"],["unlock_write",[1,0]],["put",[7]]]',
    "0,1,1,1,1,0,0,1,1,0,1,0,1,0,0,0,0,0,0,0", 1)
PUT_BESIDE_GET_ENTRIES = [
    *LOST_ENTRIES, (1, '["put",[7]]', '"done"', 7, 12), (0, '["get"]', "[7]", 9, 17)]
CONDITIONAL = ('[["put_if",[0],[5]]],[["put_if",[0],[6]]]', "0,0,1,1,0,1,0,0,0,0,1,1,1,1,0,0,0,0", 1)
CONDITIONAL_ENTRIES = [
    (1, '["put_if",[0],[6]]', '"yes"', 2, 13), (0, '["put_if",[0],[5]]', '"no"', 0, 17)]

CALLS_THAT_FINISHED = [
    run(*LOST, *LOST_ENTRIES),
    report(*LOST, '"report":[[2,0],[2,0],[3,2]]', *LOST_ENTRIES),
    ("run", script(*LOST, '"layout":2,"readers":127'),
     history(LOST_IN_TWO, 0, '"format":2,"layout":2,"readers":127')),
    ("run --report", script(*LOST, '"layout":2,"readers":127'),
     history(LOST_IN_TWO, 0, '"format":2,"layout":2,"readers":127,"report":[[2,0],[2,0],[3,2]]')),
    ("run", '{"layout":2,"readers":5,"steps":[0],"threads":[[["try_write"]]],"versions":1,"width":2}',
     '{"entries":[],"format":2,"layout":2,"readers":5,"versions":1,"width":2}'),
    run('[["validate",256]]', "0,0", 0, (0, '["validate",256]', '"yes"', 0, 0)),
    ("run", '{"readers":1,"steps":[0,0],"threads":[[["validate",256]]],"versions":1,"width":0}',
     '{"entries":[{"call":["validate",256],"first":0,"last":0,"point":0,"reply":"yes","thread":0}],'
     '"format":1,"readers":1,"versions":1,"width":0}'),
    # Where nothing finished there is no report.
    *((words, '{"readers":2,"steps":[],"threads":[],"versions":3,"width":16}',
       '{"entries":[],"format":1,"readers":2,"versions":3,"width":16}') for words in ("run", "run --report")),
]

# Of a key that stands twice the last counts.
LIMITS_AND_WIDTH_ARE_READ = [
    row for text, count, end in (
        ('{"readers":127,"steps":[],"threads":[],"versions":1000,"width":0}', 0,
         '"format":1,"readers":127,"versions":1000,"width":0'),
        ('{"width":16,"versions":36028797018963966,"threads":[[],[]],"steps":[],"readers":1}', 2,
         '"format":1,"readers":1,"versions":36028797018963966,"width":16'),
        (' {"readers" : 2,\n"versions":\t0, "width":1, "steps":[ ],"threads":[[ ]] }\r\n', 1,
         '"format":1,"readers":2,"versions":0,"width":1'),
        ('{"layout":1,"readers":127,"steps":[],"threads":[],"versions":5,"width":2}', 0,
         '"format":1,"readers":127,"versions":5,"width":2'),
        ('{"layout":2,"readers":65535,"steps":[],"threads":[],\n"versions":70368744177662,"width":2}', 0,
         '"format":2,"layout":2,"readers":65535,"versions":70368744177662,"width":2'),
        ('{"width":"0","readers":5,"steps":[],"threads":[],"versions":1,"width":3}', 0,
         '"format":1,"readers":5,"versions":1,"width":3'))
    for row in limited(text, count, end)
]

STEPS_OF_THREADS_BETWEEN_ONE_ANOTHER = [
    run('[["try_write"]],[["try_write"]]', "0,1,0,1", 0,
        (0, '["try_write"]', "384", 0, 2), (1, '["try_write"]', "0", 1, 3)),
    run('[["try_write"]],[["unlock_write",[0,0]],["unlock_write",[0,0]]]', "0,1,0,1,1", 0,
        (1, '["unlock_write",0]', '"mismatch"', 1, 1), (0, '["try_write"]', "384", 0, 2),
        (1, '["unlock_write",384]', '"done"', 3, 4)),
    run('[["try_write"]],[["try_read"],["unlock_read",257]]', "0,1,1,1,1,0", 0,
        (1, '["try_read"]', "257", 1, 2), (1, '["unlock_read",257]', '"done"', 3, 4),
        (0, '["try_write"]', "384", 0, 5)),
    run('[["optimistic"],["validate",[0,0]]],[["try_write"]]', "0,1,1,0", 0,
        (0, '["optimistic"]', "256", 0, 0), (1, '["try_write"]', "384", 1, 2),
        (0, '["validate",256]', '"no"', 3, 3)),
    run('[["unlock",[0,5]],["optimistic"]]', "0,0", 0,
        (0, '["unlock",0]', '"mismatch"', 0, 0), (0, '["optimistic"]', "256", 1, 1)),
    run('[["write_lock"]],[["read_lock"],["unlock_read",[1,0]]]', "1,1,0,0,1,1,0,0", 0,
        (1, '["read_lock"]', "257", 0, 1), (1, '["unlock_read",257]', '"done"', 4, 5),
        (0, '["write_lock"]', "384", 2, 7)),
    run('[["get"]],[["put",[7,9]]]', "0,0,1,1,1,1,1,0,0,0,0,0,0,0,0", 2,
        (1, '["put",[7,9]]', '"done"', 2, 6), (0, '["get"]', "[7,9]", 0, 14)),
    run('[["get"]],[["put",[7,9]]]', "0,0,0,0,1,1,1,1,1", 2,
        (0, '["get"]', "[0,0]", 0, 3), (1, '["put",[7,9]]', '"done"', 4, 8)),
    run('[["put_if",[0],[5]]]', "0,0,0,0,0,0,0", 1, (0, '["put_if",[0],[5]]', '"yes"', 0, 6)),
    run('[["put_if",[3],[5]]]', "0,0,0,0,0", 1, (0, '["put_if",[3],[5]]', '"no"', 0, 4)),
    run('[["write_lock"]],[["try_write"]]', "1,1,0,0,0,0,0,0,0,0,0,0", 0, (1, '["try_write"]', "384", 0, 1)),
    run('[["get"]]', ",".join("0" * 18), 16, (0, '["get"]', "[" + ",".join("0" * 16) + "]", 0, 17)),
    run("[],[]", "0,0,0", 0),
    ("run", script('[["put",[7]],["get"]]', "0,0,0,0,0,0,0", 1, versions=0),
     history([(0, '["put",[7]]', '"done"', 0, 3), (0, '["get"]', "[7]", 4, 6)], 1, versions=0)),
    run('[["write_lock"]],[["try_write"]]', "1,1," + ",".join("0" * 1000), 0, (1, '["try_write"]', "384", 0, 1)),
    run(*READERS, *READERS_ENTRIES),
    run(*CONDITIONAL, *CONDITIONAL_ENTRIES),
    run(*PUT_BESIDE_GET, *PUT_BESIDE_GET_ENTRIES),
]

OWN_STEPS_AND_WHAT_OTHERS_CHANGED = [
    report('[["try_write"]],[["try_write"]]', "0,1,0,1", 0, '"report":[[2,0],[2,1]]',
           (0, '["try_write"]', "384", 0, 2), (1, '["try_write"]', "0", 1, 3)),
    report(*READERS, '"report":[[2,0],[2,0],[4,2]]', *READERS_ENTRIES),
    report(*CONDITIONAL, '"report":[[7,0],[11,0]]', *CONDITIONAL_ENTRIES),
    report(*PUT_BESIDE_GET, '"report":[[2,0],[2,0],[3,2],[4,0],[7,0]]', *PUT_BESIDE_GET_ENTRIES),
    report('[["put_if",[0],[5]]]', ",".join("0" * 7), 1, '"report":[[7,0]]',
           (0, '["put_if",[0],[5]]', '"yes"', 0, 6)),
    report('[["try_write"]]', "", 0, ""),
]

PARTS_THAT_DO_NOT_SUIT = [
    row for text, line in (
        (script("[],[]", "0,64", 0), "no thread at step 1"),
        ('{"readers":1,"steps":[0,1,2],"threads":[[],[]],"versions":1,"width":17}', "no thread at step 2"),
        ('{"readers":1,"steps":[0],"threads":[],"versions":1,"width":0}', "no thread at step 0"),
        (script("", "", 17), "record width"),
        (script('[["get"]]', "", 0), "record width"),
        (script('[["put",[1]]]', "", 2), "record width"),
        (script('[["put",[1,2]]]', "", 1), "record width"),
        (script('[],[["put_if",[1],[1,2]]]', "", 1), "record width"),
        (script(",".join(["[]"] * 65), "", 1), "too many threads"),
        (script(",".join(["[]"] * 65), "", 17), "too many threads"),
        (script("[" + ",".join(['["get"]'] * 10_001) + "]", "", 1), "too many calls"),
        (script("[]", ",".join("0" * 1_000_001), 1), "too many steps"))
    for row in refused(text, f"script refused: {line}")
]

AS_MUCH_AS_THERE_MAY_BE = [
    run(",".join(["[]"] * 64), "", 1),
    run("[]", ",".join("0" * 1_000_000), 0),
    run("[" + ",".join(['["get"]'] * 10_000) + "]", "", 1),
    run('[["put",[5]]]', "", 1),
    run('[["put",[1,2,3,4,5,6,7,8,9,10,11,12,13,14,15,16]]]', "", 16),
]

THE_FIRST_FAULT_OF_THE_FIELDS = (
    fields("not json", "", "{", "1e400")
    + fields(
        "not a script: top", "{}", "[]",
        '{"readers":1,"steps":[],"threads":[],"versions":1}',
        '{"layout":1,"readers":1,"steps":[],"threads":[],"versions":1}',
        '{"calls":[],"readers":1,"steps":[],"threads":[],"versions":1,"width":0}',
        '{"layout":1,"more":1,"readers":1,"steps":[],"threads":[],"versions":1,"width":0}',
        '{"calls":[],"readers":1,"versions":1}')
    + fields(
        "not a script: layout",
        '{"layout":0,"readers":0,"steps":[],"threads":[],"versions":1,"width":0}',
        '{"layout":3,"readers":"1","steps":[],"threads":[],"versions":1,"width":0}',
        '{"layout":null,"readers":1,"steps":5,"threads":5,"versions":1,"width":0}')
    + fields("not a script: readers", '{"readers":-1,"steps":5,"threads":5,"versions":"1","width":0}')
    + fields(
        "over a limit: readers",
        '{"readers":0,"steps":[],"threads":[],"versions":"1","width":0}',
        '{"readers":128,"steps":[],"threads":[],"versions":1,"width":0}',
        '{"layout":2,"readers":65536,"steps":[],"threads":[],"versions":1,"width":0}',
        '{"layout":2,"readers":0,"steps":[],"threads":[],"versions":1,"width":0}')
    + fields("not a script: versions", '{"readers":1,"steps":5,"threads":5,"versions":null,"width":"0"}')
    + fields(
        "over a limit: versions",
        '{"readers":1,"steps":[],"threads":[],"versions":36028797018963967,"width":"0"}',
        '{"layout":2,"readers":1,"steps":[],"threads":[],"versions":70368744177663,"width":0}')
    + fields(
        "not a script: width",
        '{"readers":1,"steps":[],"threads":5,"versions":1,"width":-1}',
        '{"readers":1,"steps":5,"threads":[],"versions":1,"width":"2"}',
        '{"readers":1,"steps":[],"threads":[],"versions":1,"width":1.5}')
    + fields(
        "not a script: threads",
        '{"readers":1,"steps":5,"threads":{},"versions":1,"width":0}',
        '{"readers":1,"steps":[],"threads":[[0],5],"versions":1,"width":0}',
        '{"readers":1,"steps":[],"threads":["try_write"],"versions":1,"width":99}')
    + fields("not a script: call 0 1",
             '{"readers":1,"steps":[-1],"threads":[[["get"],0],[1]],"versions":1,"width":0}')
    + fields("not a script: call 3 17",
             '{"readers":1,"steps":[],"threads":[[],[],[],[' + '["get"],' * 17 + '0]],"versions":1,"width":1}')
    + fields("not a script: call 1 1", '{"readers":1,"steps":[],"threads":[[],[["get"],["put",[]]]],'
             '"versions":1,"width":1}')
    + fields(
        "not a script: steps",
        '{"readers":1,"steps":5,"threads":[[["put",[1]]]],"versions":1,"width":99}',
        '{"readers":1,"steps":{},"threads":[],"versions":1,"width":0}')
    + fields(
        "not a script: step 1",
        '{"readers":1,"steps":[7,"0",-1],"threads":[[]],"versions":1,"width":99}',
        '{"readers":1,"steps":[0,-1],"threads":[[]],"versions":1,"width":0}'))

NO_CALLS = [
    row for call in (
        "0", "{}", "[]", "[1]", '"try_write"', '["Try_write"]', '["lock"]', '["try_write",1]', '["get",[1]]',
        '["unlock"]', '["unlock",1,2]', '["unlock",-1]', '["unlock",1.0]', '["unlock",18446744073709551616]',
        '["unlock","384"]', '["unlock",null]', '["unlock",[]]', '["unlock",[0]]', '["unlock",[0,0,0]]',
        '["unlock",[0,-1]]', '["unlock",[[0,0],0]]', '["put"]', '["put",1]', '["put",[]]', '["put",[1,"2"]]',
        '["put",[1,2.0]]', '["put",[1],[2]]', '["put",[1,2,3,4,5,6,7,8,9,10,11,12,13,14,15,16,17]]',
        '["put_if",[1]]', '["put_if",[1],[]]', '["put_if",[],[1]]', '["put_if",[1],[2],[3]]')
    for row in no_call(call)
]

RUNS = (
    CALLS_THAT_FINISHED + LIMITS_AND_WIDTH_ARE_READ + STEPS_OF_THREADS_BETWEEN_ONE_ANOTHER
    + OWN_STEPS_AND_WHAT_OTHERS_CHANGED + PARTS_THAT_DO_NOT_SUIT + AS_MUCH_AS_THERE_MAY_BE
    + THE_FIRST_FAULT_OF_THE_FIELDS + NO_CALLS)

CALLS = (
    '["try_write"]', '["try_read"]', '["write_lock"]', '["read_lock"]', '["optimistic"]', '["validate",0]',
    '["unlock_write",384]', '["unlock_read",257]', '["unlock",256]', '["to_write",18446744073709551615]',
    '["to_read",1]', '["to_optimistic",2]', '["try_unlock_write"]', '["try_unlock_read"]', '["is_write_locked"]',
    '["is_read_locked"]', '["read_count"]', '["get"]', '["put",[7, 8]]', '["put_if",[0, 18446744073709551615],[1, 2]]',
    '["validate",[0,1]]', '["unlock_write",[1,0]]', '["unlock_read",[18446744073709551615,0]]',
    '["unlock",[0,18446744073709551615]]', '["to_write",[2,3]]', '["to_optimistic",[63,9999]]')


def each_call():
    """Each call alone in a script, and how the history has it: the stamp of a call that isn't there is 0."""
    made = []
    for call in CALLS:
        written = json.loads(call)
        if written[0] not in ("put", "put_if"):
            written = [0 if isinstance(part, list) else part for part in written]
        made.append((call, script(f"[{call}]", ",".join("0" * 40), 2), written))
    return made
