"""A disk that refuses something: each failure has its status or its answer, and its reason, and loses no block."""
import errno
import os
import resource
import shutil
import signal
import subprocess

from checking import Skipped, check, expect
from formats import random_block
from stores import (FILES, HOT, INIT, NO_STORE, Ended, Program, Store, answers, closing, files_in, finish, found, get_line, new_folder,
                    new_store, put_line, puts_and_gets, script_of)

NOBODY = 65534


def reason(what, call, number):
    """The line on standard error that says why the first call of a kind failed."""
    return f"splitstore: {what}: {call}: {os.strerror(number)} (os error {number})\n".encode("ascii")


def disk_fault(what, call, number):
    """How a run ends if the disk failed while the store was opened or made."""
    return Ended(6, b"error: disk fault\n", reason(what, call, number))


def limiting(which, most):
    """Sets a limit of the system, in a new process. A file that would grow too large is then an error and no signal."""
    def limit():
        signal.signal(signal.SIGXFSZ, signal.SIG_IGN)
        resource.setrlimit(which, (most, most))
    return limit


def filled(trial):
    return new_store(trial).put(*(random_block(trial.random, length) for length in (0, 40, 3000)))


@check("on a full disk a put is answered fault, its reason is said, gets go on, and nothing that was stored is lost")
def full_disk(trial):
    store = filled(trial)
    large, small = random_block(trial.random, 50_000), random_block(trial.random, 10)
    script = script_of(put_line(large), get_line(large), get_line(store.blocks[2]), put_line(small), put_line(large), get_line(small))
    ended = store.trace(script, before=[limiting(resource.RLIMIT_FSIZE, 20_000)])
    expect("the answers on a full disk", answers(ended.out),
           ["opened 0", "fault", "not-found", found(store.blocks[2]), "stored 1", "fault", found(small)])
    expect("the end on a full disk", (ended.status, ended.err), (0, reason(HOT, "write", errno.EFBIG)))
    store.blocks.append(small)
    store.expect_found("after a full disk")
    store.put(large).expect_found("after there was room again")


@check("init on a full disk makes no store, and can be run again when there is room")
def init_on_full_disk(trial):
    for most in (0, 5, 20):
        store = Store(trial.program, new_folder(trial, str(most)))
        ended = trial.program.run(store.folder, *INIT, before=[limiting(resource.RLIMIT_FSIZE, most)])
        first = FILES[1] if most == 0 else HOT
        expect(f"init with room for {most} bytes a file", ended, disk_fault(first, "write", errno.EFBIG))
        expect("trace after it", store.trace(""), NO_STORE)
        store.init().put(random_block(trial.random, 10)).expect_found("after init was run again")


@check("a program that the system ends because a file grew too large loses nothing that was stored")
def ended_by_limit(trial):
    store = filled(trial)
    script = puts_and_gets([random_block(trial.random, 10_000) for _ in range(9)])
    limits = {resource.RLIMIT_CORE: (0, 0), resource.RLIMIT_FSIZE: (80_000, 80_000)}
    ended = store.trace(script, before=[lambda it=each: resource.setrlimit(*it) for each in limits.items()])
    expect("the signal that ended the run", ended.status, -signal.SIGXFSZ)
    store.expect_found("after the system ended a run")
    store.put(random_block(trial.random, 10)).expect_found("after another run")


@check("a file that is a folder ends init and trace with status 6 and its reason, and no store is made or lost")
def file_is_folder(trial):
    for name in FILES:
        folder = new_folder(trial, name)
        os.mkdir(os.path.join(folder, name))
        expect(f"init if {name} is a folder", trial.program.run(folder, *INIT), disk_fault(name, "open", errno.EISDIR))
        os.rmdir(os.path.join(folder, name))
        Store(trial.program, folder).init()
    store, aside = filled(trial), os.path.join(trial.folder, "aside")
    path = os.path.join(store.folder, HOT)
    os.rename(path, aside)
    os.mkdir(path)
    expect("trace if the hot log is a folder", store.trace("0 open\n"), disk_fault(HOT, "open", errno.EISDIR))
    os.rmdir(path)
    os.rename(aside, path)
    store.expect_found("after the hot log was a folder")


@check("a limit of descriptors ends init and trace with status 6 and its reason")
def few_descriptors(trial):
    store = filled(trial)
    before = store.files()
    for arguments in (INIT, ["trace"]):
        # the one descriptor that is left is for the folder
        ended = trial.program.run(store.folder, *arguments, before=[limiting(resource.RLIMIT_NOFILE, 4)])
        expect(f"{arguments[0]} with one descriptor left", ended, disk_fault(HOT, "open", errno.EMFILE))
    # that of standard input is left, which the program's libraries are loaded by, and which is not for the store
    ended = trial.program.run(store.folder, *INIT, before=[limiting(resource.RLIMIT_NOFILE, 3), closing(0)])
    expect("init with the descriptor of a stream left", ended, disk_fault(".", "open", errno.EMFILE))
    expect("the files afterwards", store.files(), before)


def become_nobody():
    """Gives up the rights of root, in a new process."""
    os.setgroups([])
    os.setgid(NOBODY)
    os.setuid(NOBODY)


def unprivileged(trial):
    """The program as a user whom permissions bind can run it, and what a new process does to become one."""
    if os.geteuid() != 0:
        return trial.program, []
    os.chmod(trial.folder, 0o755)
    copy = shutil.copy(trial.program.path, os.path.join(trial.folder, "program"))
    os.chmod(copy, 0o755)
    program = Program(copy, trial.program.environment)
    try:
        program.run("/", "--version", before=[become_nobody])
    except (OSError, subprocess.SubprocessError) as why:
        raise Skipped(f"this runs as root, and cannot become another user: {why}") from None
    return program, [become_nobody]


@check("a folder without permission ends init and trace with status 6 and its reason, and nothing is made")
def folder_without_permission(trial):
    program, before = unprivileged(trial)
    refusals = {0o555: disk_fault(HOT, "open", errno.EACCES), 0o333: disk_fault(".", "open", errno.EACCES)}
    for mode, wanted in refusals.items():
        folder = new_folder(trial, f"{mode:o}")
        os.chmod(folder, mode)
        for arguments in (INIT, ["trace"]):
            expect(f"{arguments[0]} in a folder of mode {mode:o}", program.run(folder, *arguments, before=before), wanted)
        os.chmod(folder, 0o755)
        expect(f"the files of a folder of mode {mode:o}", files_in(folder), {})


def expect_info(store, program, before, wanted, what):
    """Expects what `info` answers, and that it changes nothing."""
    kept = store.files()
    expect(f"info {what}", program.run(store.folder, "info", before=before), wanted)
    expect(f"the files after info {what}", store.files(), kept)


@check("info reads a store whose log and folder cannot be written, and makes no file in a folder that has none")
def info_without_permission(trial):
    program, before = unprivileged(trial)
    store = filled(trial)
    wanted = store.info()
    expect("the status of info", wanted.status, 0)
    for log, folder in ((0o444, 0o755), (0o644, 0o555), (0o444, 0o555)):
        os.chmod(os.path.join(store.folder, HOT), log)
        os.chmod(store.folder, folder)
        expect_info(store, program, before, wanted, f"with a log of mode {log:o} in a folder of mode {folder:o}")
    os.chmod(store.folder, 0o755)
    os.chmod(os.path.join(store.folder, HOT), 0o222)
    expect("info with a log that cannot be read", program.run(store.folder, "info", before=before), disk_fault(HOT, "open", errno.EACCES))
    os.chmod(os.path.join(store.folder, HOT), 0o644)
    linked = new_folder(trial, "linked")
    os.symlink(os.path.join(trial.folder, "nowhere"), os.path.join(linked, HOT))
    expect("info with a log that is a link to nothing", trial.program.run(linked, "info"), disk_fault(HOT, "open", errno.ENOENT))
    empty = Store(trial.program, new_folder(trial, "empty"))
    expect_info(empty, trial.program, [], NO_STORE, "in an empty folder")
    os.chmod(empty.folder, 0o555)
    expect_info(empty, program, before, NO_STORE, "in an empty folder that cannot be written")


@check("info reads a store on a file system that is mounted for reading alone, and trace and init end there with status 6")
def read_only_mount(trial):
    store = filled(trial)
    wanted = store.info()
    mount = [["mount", "--bind", store.folder, store.folder], ["mount", "-o", "remount,bind,ro", store.folder]]
    inside = " && ".join(" ".join(each) for each in mount)

    def run(*arguments):
        command = ["unshare", "--mount", "sh", "-c", f'{inside} && cd "$0" && exec "$@"', store.folder, trial.program.path, *arguments]
        return finish(subprocess.Popen(command, stdin=subprocess.DEVNULL, stdout=subprocess.PIPE, stderr=subprocess.PIPE))

    if shutil.which("unshare") is None or run("--version").status != 0:
        raise Skipped("nothing can be mounted here")
    expect("info on a mount for reading", run("info"), wanted)
    for arguments in (INIT, ["trace"]):
        expect(f"{arguments[0]} on a mount for reading", run(*arguments), disk_fault(HOT, "open", errno.EROFS))
    store.expect_found("after a mount for reading")


@check("a hot log without permission ends init and trace with status 6 and its reason, and keeps its blocks")
def log_without_permission(trial):
    program, before = unprivileged(trial)
    store = filled(trial)
    os.chmod(store.folder, 0o777)
    for mode in (0o444, 0o222, 0):
        kept = store.files()
        os.chmod(os.path.join(store.folder, HOT), mode)
        for arguments in (INIT, ["trace"]):
            ended = program.run(store.folder, *arguments, before=before)
            expect(f"{arguments[0]} with a log of mode {mode:o}", ended, disk_fault(HOT, "open", errno.EACCES))
        os.chmod(os.path.join(store.folder, HOT), 0o644)
        expect(f"the files with a log of mode {mode:o}", store.files(), kept)
    store.expect_found("after the log had its permission again")
