"""Reads, writes and other calls of the system that are interrupted, move less, or fail, one in each run."""
import errno

from checking import check, expect, expect_that
from failures import reason
from formats import random_block
from headers import header_block
from interposed import ONE_BYTE, on, run
from model import Call, Head, Model
from stores import HOT, Ended, answers, copied, found, get_line, head_line, new_store, put_line, script_of

# The heights of the heads that are set.
HEIGHTS = (1, 30)

STREAMS = {"stdin": "standard input", "stdout": "standard output"}


def filled(trial):
    return new_store(trial).put(*(random_block(trial.random, length) for length in (0, 100, 5000)))


@check("a read or a write that a signal interrupts or that moves one byte is made again or goes on, and changes nothing else")
def interrupted(trial):
    store, large, small = filled(trial), random_block(trial.random, 50_000), random_block(trial.random, 20)
    script = script_of(put_line(large), get_line(large), put_line(small), get_line(large), get_line(store.blocks[1]))
    calm = copied(trial, store)
    usual, made = run(trial, calm.folder, "trace", script=script)
    expect("the end of a calm run", (usual.status, usual.err, len(answers(usual.out))), (0, b"", 6))
    files, count = calm.files(), 0
    for call, file in (("pwrite", HOT), ("pread", HOT), ("read", "stdin"), ("write", "stdout")):
        calls = on(made, file, call)
        expect_that(calls, f"there is a {call} of {file}")
        for number in range(1, len(calls) + 1):
            for error, how in ((errno.EINTR, "interrupted"), (ONE_BYTE, "of one byte")):
                copy = copied(trial, store)
                ended, _ = run(trial, copy.folder, "trace", script=script, rules=[(call, file, number, error)])
                expect(f"a run whose {call} {number} of {file} is {how}", ended, usual)
                expect(f"the files after a run whose {call} {number} of {file} is {how}", copy.files(), files)
                count += 1
    return f"{count} runs"


@check("if standard output fails once, what is printed is a prefix, all calls are made, and the status is 5 with its reason")
def failed_output(trial):
    store, large = filled(trial), random_block(trial.random, 50_000)
    new = [random_block(trial.random, 20) for _ in range(6)]
    script = script_of(put_line(large), *(line for each in new for line in (get_line(large), put_line(each))))
    calm = copied(trial, store)
    usual, made = run(trial, calm.folder, "trace", script=script)
    files, count = calm.files(), len(on(made, "stdout", "write"))
    expect_that(count > 3, "the output is written in several parts")
    for number in range(1, count + 1):
        copy = copied(trial, store)
        ended, _ = run(trial, copy.folder, "trace", script=script, rules=[("write", "stdout", number, errno.ENOSPC)])
        expect(f"what is printed if write {number} fails", (ended.status, ended.out), (5, usual.out[:len(ended.out)]))
        reasons = [reason("standard output", call, errno.ENOSPC) for call in ("write", "flush")]
        expect_that(ended.err in reasons, f"standard error if write {number} fails is {ended.err!r}")
        expect(f"the files if write {number} fails", copy.files(), files)
    return f"{count} writes"


@check("if standard input fails at any read, the status is 4 with its reason, and the store is as it was")
def failed_input(trial):
    store = filled(trial)
    script = script_of(*(put_line(random_block(trial.random, 3000)) for _ in range(5)))
    before = store.files()
    _, calm = run(trial, copied(trial, store).folder, "trace", script=script)
    count = len(on(calm, "stdin", "read"))
    expect_that(count > 1, "the input is read in several parts")
    for number in range(1, count + 1):
        ended, _ = run(trial, store.folder, "trace", script=script, rules=[("read", "stdin", number, errno.EIO)])
        expect(f"trace if read {number} fails", ended, Ended(4, b"error: read fault\n", reason("standard input", "read", errno.EIO)))
    expect("the files of the store", store.files(), before)
    return f"{count} reads"


def keep_answers(what, model, calls, got):
    """Expects that each answer is the model's or `fault`, which keeps nothing, and gives what the records of failed calls add."""
    lost = []
    for call, answer in zip(calls, got):
        wanted, new = model.answer(call)
        expect_that(answer in (wanted, "fault"), f"{what}: {call.name} is answered {answer[:80]}, and not {wanted[:80]}")
        if answer == "fault":
            lost.append(new)
        else:
            model.keep(new)
    return lost


def puts_gets_and_heads(blocks, headers):
    """Calls that put each block and get it, and that set each header as head, and their script."""
    calls, lines = [Call(0, "open")], []
    for each in [*blocks, *headers]:
        calls += [Call(0, "put", 0, ((each.cid, each.data),)), Call(0, "get", 0, cid=each.cid)]
        lines += [put_line(each), get_line(each)]
    for each in headers:
        calls += [Call(0, "head", cids=(each.cid,)), Call(0, "info")]
        lines += [head_line(each), "0 info\n"]
    return calls, script_of(*lines)


@check("each call of the system failing in turn: every answer is right or fault, the reason is said, and what was stored is found")
def each_call_failing(trial):
    store = filled(trial)
    new = [random_block(trial.random, length) for length in (40, 3000, 90_000)]
    headers = [header_block(height) for height in HEIGHTS]
    calls, script = puts_gets_and_heads([*new, store.blocks[1]], headers)
    _, calm = run(trial, copied(trial, store).folder, "trace", script=script)
    # the last line that is written down is of the allocations
    for number in range(1, len(calm)):
        copy, model = copied(trial, store), Model()
        model.keep({each.cid: each.data for each in store.blocks})
        ended, made = run(trial, copy.folder, "trace", script=script, rules=[("*", "*", number, errno.EIO)])
        failed = next(each for each in made if each.result == -errno.EIO)
        what, name = f"a run whose {failed.call} of {failed.file}, call {number}, fails", STREAMS.get(failed.file, failed.file)
        expect_that(ended.status in (0, 4, 5, 6), f"{what}: its status is {ended.status}")
        is_said = ended.err.startswith(f"splitstore: {name}: ".encode("ascii")) and ended.err.count(b"\n") == 1
        expect_that(is_said, f"{what}: standard error is {ended.err!r}")
        lost = keep_answers(what, model, calls, answers(ended.out))
        copy.blocks = [each for each in [*store.blocks, *new, *headers] if each.cid in model.kept]
        copy.expect_found(f"after {what}")
        for each in [*new, *headers]:
            if any(each.cid in record for record in lost if not isinstance(record, Head)):
                answer = copy.answers_to(get_line(each))[0]
                expect_that(answer in ("not-found", found(each)), f"after {what}: a get of a failed put's block is answered {answer[:80]}")
        heads = [model.head, *(record for record in lost if isinstance(record, Head))]
        # a call whose answer is not printed may have set the head too
        heads += [Head(height, ()) for height in HEIGHTS if len(answers(ended.out)) < len(calls)]
        height = copy.answers_to("0 info\n")[0].split()[2]
        expect_that(height in [str(head.height) if head else "-" for head in heads], f"after {what}: the head has the height {height}")
    return f"{number} calls"
