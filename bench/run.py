"""Settles 23 full books by a plain C program and by this repository's searches, and prints for each the fastest of several runs of both, and their ratio.
Run it from the repository's root after `rt run` in crates/settle_bench, which leaves out/settle_bench there."""
import os
import subprocess
import tempfile

OURS = os.path.join("crates", "settle_bench", "out", "settle_bench")


def timed(command, book):
    """The nanoseconds that a program took, and what else it printed."""
    with open(book, "rb") as file:
        nanos, rest = subprocess.run(command, stdin=file, capture_output=True, check=True, text=True).stdout.split(" ", 1)
    return int(nanos), rest.strip()


def main():
    with tempfile.TemporaryDirectory() as work:
        plain = os.path.join(work, "plain")
        subprocess.run(["gcc", "-O2", "-o", plain, "bench/plain.c"], check=True)
        subprocess.run(["python3", "bench/books.py", work], check=True)
        ratios = {"usual": [], "hard": []}
        for name in sorted(os.listdir(work)):
            if not name.endswith(".fpd"):
                continue
            book = os.path.join(work, name)
            by_plain, says = timed([plain], book)
            by_ours, answers = timed([OURS, "times"], book)
            if says != answers:
                raise SystemExit(f"{name}: plain says {says}, ours {answers}")
            ratio = by_ours / by_plain
            ratios[name.split("-")[0]].append(ratio)
            print(f"{name[:-4]:<11} plain {by_plain / 1000:8.1f} us, ours {by_ours / 1000:8.1f} us, ratio {ratio:5.2f}; {says}")
        for kind, all_ratios in ratios.items():
            print(f"{kind}: ratios from {min(all_ratios):.2f} to {max(all_ratios):.2f}")


main()
