#!/usr/bin/env python3
"""Reckons the clock of `rt ci` from nothing, from what its checks take: which crates hold it up, and what a change of their sizes would save.

    python3 bench/gate_model.py [SLOW [FREE]]

Run it at the top of the repository. It spreads the checks as the kit's `rt ci` does: one a processor, as many as memory holds by the kit's own estimate, each
once the crates below are proved, first those with the longest chain of others behind them; edits where no proof waits for memory. What each check takes is
TIMES, in minutes of a processor of a slow machine; SLOW (1 if left out) is how slow a machine is beside it: 0.57 for the fastest so far. FREE (24.8
if left out) is the free memory at the start, in GB: so much has a machine of 24 GiB. It proves nothing, and takes a second. What it says is reckoned,
not measured: 62.4 of the run that it was made from, whose end was reckoned from minute 55 on, too; 34 at 0.57 of its times, of a run that took 33.6.
"""
import glob
import importlib.machinery
import importlib.util
import os
import sys

# `rattle build` of each library and of each crate's tests, with what the compiler takes, in minutes of a processor: in a run from nothing on 1 December 2026, late,
# on a machine of 2.5 GHz (role_expand 5.2), until minute 55 with nothing beside it. Of what changed since, or came behind that minute (task_index, farm_rows,
# farm_machine, farm_files, farm_asks, command_line, farm_text, farm_cli, farm, cli_tests, farm_tests), what the next run took, by how much slower that was at the
# same minutes; of what changed on 2 December (task_types, http_wire, the crates of templates, farm_crews), what the run of that day took, by how
# much slower the crates beside it were. A crate that is not here takes a few seconds.
TIMES = {
    "scope_sets": 1.6, "dep_graph": 2.7, "jsone_expr": 3.3, "farm_text": 5.2, "role_expand": 5.5, "octets": 0.4, "causes": 0.4, "route_table": 1.3,
    "http_wire": 2.8, "disk_base": 1.9, "task_types": 1.7, "task_defs": 5.8, "jsone_values": 3.7, "slug_places": 0.4, "hawk_auth": 3.9, "task_groups": 1.1, "scope_lines": 0.8,
    "plain_text": 0.6, "disk_journal": 1.4, "jsone_eval": 2.4, "command_line": 4.0, "shared_desk": 1.8, "claim_queue": 2.7, "run_states": 2.5,
    "farm_record": 2.3, "jsone_render": 9.1, "call_rules": 2.0, "task_statuses": 1.3, "hook_book": 0.8, "listeners": 1.3, "random_ids": 0.6,
    "farm_rows": 5.0, "load_requests": 0.9, "houses": 2.4, "hook_fire": 1.0, "farm_asks": 3.3, "console_commands": 2.1, "farm_machine": 6.8,
    "farm_files": 5.4, "api_routes": 3.2, "farm_core": 3.4, "farm_server": 1.9, "farm_serving": 1.8, "farm_laws": 0.8, "farm_bulk": 2.2, "farm_crews": 1.9, "farm_cli": 4.7,
    "task_index": 7.6, "farm": 4.4,
}
TESTS = {
    "wire_tests": 3.1, "farm_desk": 0.7, "parsing_tests": 1.2, "disk_tests": 2.5, "desk_tests": 1.7, "expression_tests": 3.6, "history": 0.4,
    "queue_tests": 5.3, "sign_tests": 4.4, "rendering_tests": 2.1, "scope_tests": 2.0, "text_tests": 2.4, "task_tests": 6.7, "file_tests": 2.4,
    "farm_tests": 12.4, "cli_tests": 8.0,
}
# An edit over what its crate's seed, a proof of the crate, has left.
EDIT = 0.3
# What a check gains from more jobs.
GAIN = {1: 1, 2: 1.6, 3: 2.0, 4: 2.3}


def kit():
    """The kit's `rt`, as a module."""
    loader = importlib.machinery.SourceFileLoader("kit", os.path.realpath("/usr/local/bin/rt"))
    module = importlib.util.module_from_spec(importlib.util.spec_from_loader("kit", loader))
    sys.modules["kit"] = module
    loader.exec_module(module)
    return module


def tasks_of(crates, needs, slow):
    """Each check: what it waits for, its work in lines, its memory, and its minutes."""
    tasks = {}
    for it in crates:
        name, waits, lines = it.name, [(b.name, "proof") for b in it.below()], it.count(rb"\n")
        tasks[name, "proof"] = (waits, lines, needs[name], TIMES.get(name, 0.2) * slow)
        tasks[name, "tests"] = (waits, lines * (name in TESTS), needs[name], TESTS.get(name, 0.02) * slow)
        edits, both = len(glob.glob(f"crates/{name}/must-fail/*.edit")), [(name, "proof"), (name, "tests")]
        if edits:
            tasks[name, "seed"] = (both, 0, needs[name], TIMES.get(name, 0.2) * slow)
        for number in range(edits):
            tasks[name, "edits", number] = ([*waits, (name, "seed")], lines, 0.7 * needs[name], EDIT * slow)
    return tasks


def clock(tasks, lanes, memory):
    """When the last check ends, and each check's start, end and jobs."""
    behind = dict.fromkeys(tasks, 0)
    for key in reversed([*tasks]):
        behind[key] += tasks[key][1]
        for below in tasks[key][0]:
            behind[below] = max(behind[below], behind[key])
    left = sorted(tasks, key=lambda it: (it[1] in ("edits", "seed"), -behind[it]))
    running, given, rows, now = {}, set(), [], 0.0
    while left or running:
        ready = [it for it in left if all(below in given for below in tasks[it][0])]
        proofs, lacks = [it for it in ready if it[1] in ("proof", "tests")], False
        for at, key in enumerate(ready):
            if lacks and key not in proofs:
                break
            _, _, need, minutes = tasks[key]
            room = memory - sum(it[1] for it in running.values())
            idle = lanes - sum(it[2] for it in running.values())
            if idle > 0 and (not running or need <= room):
                left.remove(key)
                others = len(proofs) - proofs.index(key) if key in proofs else len(ready) - at
                spare = min(4, idle // others, 1 + int((room / need - 1) / 0.6)) if key in proofs or key[1] == "seed" else 1
                jobs = max(1, spare)
                running[key] = now + minutes / GAIN[jobs], need * (1 + 0.6 * (jobs - 1)), jobs
                rows.append((now, now + minutes / GAIN[jobs], key, jobs))
            else:
                lacks = lacks or idle > 0 and key in proofs
        now = min(it[0] for it in running.values())
        for key in [it for it in running if running[it][0] <= now + 1e-9]:
            running.pop(key)
            given.add(key)
    return now, rows


def main():
    slow = float(sys.argv[1]) if sys.argv[1:] else 1.0
    free = float(sys.argv[2]) if sys.argv[2:] else 24.8
    rt = kit()
    crates = rt.crates_of(os.getcwd())
    needs = {it.name: rt.need(it) for it in crates}
    tasks, memory = tasks_of(crates, needs, slow), 0.85 * free * 1e9
    end, rows = clock(tasks, 4, memory)
    for begins, ends, key, jobs in rows:
        if ends - begins > 1 and key[1] != "edits":
            print(f"{begins:6.1f} to {ends:6.1f}  {key[0]} {key[1]}, {needs[key[0]] / 1e9:.1f} GB by the estimate, jobs {jobs}")
    work = sum(it[3] for it in tasks.values())
    edits = sum(it[3] for key, it in tasks.items() if key[1] in ("edits", "seed"))
    print(f"{work:.0f} minutes of a processor, {edits:.0f} of them for edits")
    print(f"on 4 processors, with {free:g} GB free: {end:.0f} minutes")
    print(f"if memory did not count: {clock(tasks, 4, 1e15)[0]:.0f} minutes")
    print(f"on 2 processors: {clock(tasks, 2, memory)[0]:.0f} minutes")


if __name__ == "__main__":
    main()
