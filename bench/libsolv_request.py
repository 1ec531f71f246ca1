#!/usr/bin/python3
"""libsolv_request.py DIR NAME, or libsolv_request.py DIR --request FILE: solves by libsolv, from the texts that
tools/collect-inputs wrote into DIR, the request to install the package NAME, or the goals of a request that have no version,
without recommendations, and prints what is installed. Packages may be removed for it."""

import os
import sys
import tempfile

import solv


ACTIONS = {
    "install": solv.Job.SOLVER_INSTALL,
    "upgrade": solv.Job.SOLVER_INSTALL | solv.Job.SOLVER_FORCEBEST,
    "remove": solv.Job.SOLVER_ERASE,
    "upgrade-all": solv.Job.SOLVER_UPDATE,
}


def goals_of(words):
    if words[0] != "--request":
        return [f"install {words[0]}"]
    with open(words[1], encoding="utf-8") as text:
        return text.read().splitlines()


def jobs_for(pool, goal):
    action, _, name = goal.partition(" ")
    selection = pool.select(name, solv.Selection.SELECTION_NAME) if name else pool.Selection_all()
    return selection.jobs(ACTIONS[action])


def main():
    folder = sys.argv[1]
    pool = solv.Pool()
    pool.setdisttype(solv.Pool.DISTTYPE_DEB)
    pool.setarch("amd64")
    with tempfile.TemporaryDirectory() as root:
        os.makedirs(os.path.join(root, "var/lib/dpkg"))
        os.symlink(os.path.join(folder, "status"), os.path.join(root, "var/lib/dpkg/status"))
        pool.set_rootdir(root)
        pool.installed = pool.add_repo("system")
        if not pool.installed.add_debdb():
            sys.exit("libsolv_request.py: the status file can't be read")
    for file in sorted(os.listdir(folder)):
        if file.startswith("index-"):
            pool.add_repo(file).add_debpackages(solv.xfopen(os.path.join(folder, file)))
    pool.createwhatprovides()
    jobs = [job for goal in goals_of(sys.argv[2:]) for job in jobs_for(pool, goal)]
    solver = pool.Solver()
    solver.set_flag(solv.Solver.SOLVER_FLAG_ALLOW_UNINSTALL, 1)
    solver.set_flag(solv.Solver.SOLVER_FLAG_IGNORE_RECOMMENDED, 1)
    if solver.solve(jobs):
        sys.exit("libsolv_request.py: the request can't be solved")
    transaction = solver.transaction()
    transaction.order()
    for step in transaction.newpackages():
        print(step)


main()
