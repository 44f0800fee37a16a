#!/usr/bin/env python3
"""Times the proved program `legalize` against the ordinary Rust program of bench/legalize on the same jobs, checks that both
print the same bytes, and prints the ratio of their times.

    bench/compare.py                  builds both, and runs every job
    bench/compare.py small long       runs these jobs alone
    bench/compare.py --ours FILE      times this executable in the place of crates/legalize/out/legalize, which is then not built
    bench/compare.py --rounds N       times each job N times (7)

bench/README.md says what the columns mean. The exit status is 1 where an output differs.
"""
import argparse, math, os, pathlib, subprocess, sys, tempfile
import generate

ROOT = pathlib.Path(__file__).resolve().parent.parent
OURS = ROOT / "crates/legalize"
RUST = ROOT / "bench/legalize"
EXAMPLE = OURS / "stdin"

# A time is taken over as many starts as take this many seconds together.
LEAST_SECONDS = 0.1


def build(ours):
    """Both executables: ours is proved where that has not been done, and run once, since `rt` builds it so."""
    subprocess.run(["cargo", "build", "--release", "--quiet"], cwd=RUST, check=True)
    if ours is None:
        with open(EXAMPLE, "rb") as job:
            done = subprocess.run(["rt", "run"], cwd=OURS, stdin=job, capture_output=True)
        if done.returncode != 0:
            sys.exit(done.stderr.decode(errors="replace") + "\ncrates/legalize is not built")
        ours = OURS / "out/legalize"
    return str(pathlib.Path(ours).resolve()), str(RUST / "target/release/legalize")


def seconds(program, job, out, starts=1):
    """The processor time of one start, user and system, as the mean of some starts."""
    files = [
        (os.POSIX_SPAWN_OPEN, 0, job, os.O_RDONLY, 0),
        (os.POSIX_SPAWN_OPEN, 1, out, os.O_WRONLY | os.O_CREAT | os.O_TRUNC, 0o644),
    ]
    total = 0.0
    for _ in range(starts):
        child = os.posix_spawn(program, [program], os.environ, file_actions=files)
        _, status, used = os.wait4(child, 0)
        if status != 0:
            sys.exit(f"{program} fails on {job}: wait status {status}")
        total += used.ru_utime + used.ru_stime
    return total / starts


def records(printed):
    """How many lines of an output answer a record."""
    return sum(line.split()[1] in (b"ok", b"no", b"bad") for line in printed.splitlines())


def compare(name, job, programs, rounds, folder):
    """A line of the table: bytes, records, the least time of each program; none where the outputs differ."""
    path = str(folder / f"{name}.job")
    pathlib.Path(path).write_bytes(job)
    outs = [str(folder / "ours.out"), str(folder / "rust.out")]
    first = [seconds(program, path, out) for program, out in zip(programs, outs)]
    printed = [pathlib.Path(out).read_bytes() for out in outs]
    if printed[0] != printed[1]:
        return None
    starts = [math.ceil(LEAST_SECONDS / max(took, 0.0005)) for took in first]
    least = [math.inf, math.inf]
    for _ in range(rounds):
        for at in range(2):
            least[at] = min(least[at], seconds(programs[at], path, outs[at], starts[at]))
    return len(job), records(printed[0]), *least


def print_growth(lines):
    """How the times grow with the number of cells in one row, where both measures were timed."""
    both_of = {cells: [lines.get(f"one_row_{measure}_{cells}") for measure in ("squared", "plain")] for cells in generate.GROWTH}
    if not any(map(all, both_of.values())):
        return
    print("\n| cells in one row | squared: ours ms | Rust ms | ratio | plain: ours ms | Rust ms | ratio |")
    print("|---:|---:|---:|---:|---:|---:|---:|")
    for cells, both in both_of.items():
        if all(both):
            times = (f"{1000 * ours:.2f} | {1000 * rust:.2f} | {ours / rust:.2f}" for *_, ours, rust in both)
            print(f"| {cells:,} | {' | '.join(times)} |")


def main():
    reader = argparse.ArgumentParser(description="Times `legalize` against an ordinary Rust program.")
    reader.add_argument("--ours", help="our executable, where it is built already")
    reader.add_argument("--rounds", type=int, default=7, help="how often each job is timed")
    reader.add_argument("names", nargs="*", metavar="NAME", help="the jobs to run (all)")
    asked = reader.parse_args()

    jobs = {"example": EXAMPLE.read_bytes(), **generate.jobs()}
    unknown = [name for name in asked.names if name not in jobs]
    if unknown:
        sys.exit(f"no such job: {', '.join(unknown)}; there are {', '.join(jobs)}")
    programs = build(asked.ours)

    lines, differ = {}, []
    print("| job | bytes | records | ours ms | Rust ms | ratio |")
    print("|---|---:|---:|---:|---:|---:|")
    with tempfile.TemporaryDirectory() as folder:
        for name in asked.names or jobs:
            line = compare(name, jobs[name], programs, asked.rounds, pathlib.Path(folder))
            if line is None:
                differ.append(name)
                print(f"| {name} | | | | | outputs differ |", flush=True)
                continue
            lines[name] = line
            length, count, ours, rust = line
            times = f"{1000 * ours:.2f} | {1000 * rust:.2f} | {ours / rust:.2f}"
            print(f"| {name} | {length:,} | {count:,} | {times} |", flush=True)
    print_growth(lines)
    if differ:
        sys.exit(f"outputs differ: {', '.join(differ)}")


if __name__ == "__main__":
    main()
