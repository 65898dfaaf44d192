#!/usr/bin/env python3
"""Runs the scripts that compare, over the programs that the gate has proved and built.

    scripts/after_gate.py [--jobs N] [NAME..]

N jobs (4) run side by side, all of JOBS or those of some names. A job begins once those that it waits for have passed, or aren't
asked for; of those that may begin the first of JOBS does. What a script said is printed on standard error when it has ended, with
its seconds, and is in out/ci/NAME.log. The seconds of each are also added to out/ci/seconds. The exit status is 1 where a job
failed, or wasn't run since another failed.

No script measures time that others could stretch: linear_time.py counts instructions, and token_reports.py compares processor
times, the least of several.
"""

import argparse
import os
import subprocess
import sys
import time
from concurrent.futures import FIRST_COMPLETED, ThreadPoolExecutor, wait
from typing import NamedTuple

from shared.programs import TOP

LOGS = TOP / "out/ci"
PACKAGE = TOP / "out/bindings/python"
TEXTS = LOGS / "random_texts"


class Job(NamedTuple):
    """A script with its arguments, the names of the jobs that it waits for, and whether status 2 says that a tool is missing."""

    name: str
    script: str
    after: frozenset = frozenset()
    may_lack_tools: bool = False


def after(*names):
    """The names of the jobs that one waits for."""
    return frozenset(names)


# Order matters: first what others wait for, then the longest.
JOBS = [
    Job("library", "bindings.sh library"),
    Job("texts", "../bindings/web/tests/random_texts.py 20000 1 out/ci/random_texts"),
    Job("web", "bindings.sh web", after("library", "texts")),
    Job("release", "releasing/release.sh", after("web")),
    Job("trial", "releasing/try_release.sh", after("release")),
    Job("python", "bindings.sh python", after("library")),
    Job("go", "bindings.sh go", after("library", "texts")),
    Job("rust", "bindings.sh rust", after("library")),
    Job("c", "bindings.sh c", after("library")),
    Job("leaks", "bindings/python_leaks.py --calls 200000", after("python"), may_lack_tools=True),
    Job("threads", "bindings/python_threads.py --count 4000", after("python")),
    Job("protocol", "bindings/protocol_fuzz.py", after("python")),
    Job("editors", "bindings/editors.py", after("python")),
    Job("editor_lines", "oracles/editor_lines.py"),
    Job("linear", "oracles/linear_time.py --instructions --divide 64 --most 2.1", may_lack_tools=True),
    Job("refused", "oracles/refused_memory.py", may_lack_tools=True),
    Job("costs", "oracles/document_costs.py", may_lack_tools=True),
    Job("recovered", "oracles/recovered_texts.py --count 20000 --stored"),
    Job("documents", "oracles/document_edits.py --edits 20000"),
    Job("fuzz", "oracles/fuzz.py --count 20000 --seconds 60"),
    Job("edits", "oracles/random_edits.py --texts 200"),
    Job("reports", "oracles/token_reports.py"),
    Job("pages", "checks/pages.py"),
    Job("globs", "oracles/random_globs.py", may_lack_tools=True),
    Job("conformance", "../conformance/check.sh"),
    Job("status", "oracles/exit_status.py"),
    Job("stored", "oracles/stored_texts.py"),
    Job("indices", "oracles/stored_indices.py"),
]


def names_for(job):
    """The environment of a job: where the package for Python is, and the random texts, if it waits for those."""
    names = dict(os.environ)
    if "python" in job.after:
        names["PYTHONPATH"] = str(PACKAGE)
    if "texts" in job.after and TEXTS.exists():
        names["STARLARK_RANDOM_TEXTS"] = str(TEXTS)
    return names


def run(job):
    """Runs a job, and returns whether it passed. Without a package for Python there is nothing to try of it."""
    if "python" in job.after and not PACKAGE.is_dir():
        print(f"== {job.script}: left out, since there is no package for Python", file=sys.stderr)
        return True
    script, *words = job.script.split()
    log, begun = LOGS / f"{job.name}.log", time.time()
    with log.open("wb") as said:
        streams = {"stdin": subprocess.DEVNULL, "stdout": said, "stderr": said}
        ran = subprocess.run([TOP / "scripts" / script, *words], cwd=TOP, env=names_for(job), **streams, check=False)
    seconds = round(time.time() - begun)
    passed = ran.returncode == 0 or (job.may_lack_tools and ran.returncode == 2)
    end = "" if passed else f"failed: {job.script}\n"
    print(f"== {job.script}: {seconds} s\n{log.read_text(encoding='utf-8', errors='replace')}{end}", end="", file=sys.stderr, flush=True)
    with (LOGS / "seconds").open("a", encoding="utf-8") as times:
        times.write(f"{seconds} {job.script}\n")
    return passed


def run_all(jobs, count):
    """Runs jobs, some side by side, and returns those that didn't pass, or weren't run."""
    waiting, running, passed = list(jobs), {}, set()
    asked = {job.name for job in jobs}
    with ThreadPoolExecutor(count) as pool:
        while True:
            ready = [job for job in waiting if job.after & asked <= passed]
            for job in ready[: count - len(running)]:
                waiting.remove(job)
                running[pool.submit(run, job)] = job
            if not running:
                return [job for job in jobs if job.name not in passed]
            for ended in wait(running, return_when=FIRST_COMPLETED).done:
                job = running.pop(ended)
                passed |= {job.name} if ended.result() else set()


def main():
    parser = argparse.ArgumentParser()
    parser.add_argument("--jobs", type=int, default=4, metavar="N")
    parser.add_argument("names", nargs="*", metavar="NAME")
    asked = parser.parse_args()
    if unknown := set(asked.names) - {job.name for job in JOBS}:
        parser.error(f"there is no job {min(unknown)}; the jobs are: {' '.join(job.name for job in JOBS)}")
    LOGS.mkdir(parents=True, exist_ok=True)
    failed = run_all([job for job in JOBS if not asked.names or job.name in asked.names], asked.jobs)
    for job in failed:
        print(f"failed or not run: {job.script}", file=sys.stderr)
    return 1 if failed else 0


if __name__ == "__main__":
    sys.exit(main())
