"""`convert`: what becomes of logs of each format, reckoned by hand, and of devices, times and places."""

import gzip
from pathlib import Path
from typing import NamedTuple

from lab.checks._tools import HERE, answer, ended, run
from lab.program import program

ATLAS = HERE / "disks/atlas10k.toml"

# Each sample, how many requests it has, and of which devices.
SAMPLES = {
    "fio_lat.1.log": ("fio", 400, 1), "fio_iolog.2.log": ("fio-iolog", 40, 2), "fio_iolog.3.log": ("fio-iolog", 40, 2),
    "blkparse.txt": ("blktrace", 38, 1), "biosnoop.txt": ("biosnoop", 48, 2), "disksim.trace": ("disksim", 60, 2),
    "msr.csv": ("msr", 60, 2), "spc.csv": ("spc", 60, 2), "alibaba.csv": ("alibaba", 60, 2),
}


class Case(NamedTuple):
    """A log, the words behind it, and the trace that is due."""

    form: str
    log: str
    trace: str
    words: str = ""


SNOOP = "TIME(s) COMM PID DISK T SECTOR BYTES LAT(ms)\n"
QUEUED = "TIME(s) COMM PID DISK T SECTOR BYTES QUE(ms) LAT(ms)\n"
CASES = {
    # fio: completion less latency, 10 ms - 4 ms and 12 ms - 7.5 ms; the trim is dropped.
    "fio": Case("fio", "10, 4000000, 0, 4096, 8192, 0\n12, 7500000, 1, 512, 0, 0\n13, 1, 2, 512, 0, 0\n",
                "0.000000 0 0 1 0\n1.500000 0 16 8 1\n"),
    "fio-iolog 2": Case("fio-iolog", "fio version 2 iolog\n/f add\n/f open\n/f wait 1500 0\n/f read 4096 8192\n"
                        "/f sync 0 0\n/f wait 250 0\n/f write 0 512\n/f close\n",
                        "0.000000 0 8 16 1\n0.250000 0 0 1 0\n"),
    "fio-iolog 3": Case("fio-iolog", "fio version 3 iolog\n3 /f add\n20 /f open\n30 /f read 4096 8192\n"
                        "1031 /f trim 0 512\n1131 /f write 0 512\n1200 /f close\n",
                        "0.000000 0 8 16 1\n1.101000 0 0 1 0\n"),
    "blktrace": Case("blktrace", "8,0 1 1 0.000000001 7 Q R 100 + 8 [a]\n8,0 1 2 0.5 7 D R 100 + 8 [a]\n"
                     "8,0 1 3 1.000000002 7 Q FWS 0 + 0 [a]\n8,0 1 4 2.000000003 7 Q WS 7 + 1 [b c]\nCPU0 (8,0):\n"
                     " Reads\n",
                     "0.000000 0 100 8 1\n2000.000002 0 7 1 0\n"),
    # biosnoop: completion less latency, 1 s - 2.5 ms and 1.01 s - 10 ms; with the time in the queue 3 ms earlier.
    "biosnoop": Case("biosnoop", SNOOP + "1.000000 Web Content 1 sda R 16 4096 2.50\n1.010000 b 2 sda W 8 512 10.00\n",
                     "0.000000 0 16 8 1\n2.500000 0 8 1 0\n"),
    "biosnoop -Q": Case("biosnoop", QUEUED + "1.0 a 1 sda R 16 4096 0.00 2.50\n1.010000 b 2 sda W 8 512 3.00 10.00\n",
                        "0.000000 0 8 1 0\n0.500000 0 16 8 1\n"),
    "disksim": Case("disksim", "28.1191041 0 100 8 1\n30 0 7 1 0x0\n", "0.000000 0 100 8 1\n1.880896 0 7 1 0\n"),
    "disksim blocks": Case("disksim", "0 0 100 2 1\n", "0.000000 0 800 16 1\n", "--block-bytes 4096"),
    # MSR: 18 digits, of which a double would lose the last; 100 ns apart.
    "msr": Case("msr", "128166372003061629,usr,0,Read,7014609920,24576,41286\n128166372003061630,usr,0,Write,0,512,1\n",
                "0.000000 0 13700410 48 1\n0.000100 0 0 1 0\n"),
    "spc": Case("spc", "0,20941264,8192,W,0.551706\n0,7,512,r,0.551707,x\n",
                "0.000000 0 2985100 16 0\n0.001000 0 7 1 1\n", "--place fold"),  # on a disk of 17,956,164
    "alibaba": Case("alibaba", "7,W,0,4096,1577808000000001\n7,R,512,1,1577808000000003\n",
                    "0.000000 0 0 8 0\n0.002000 0 1 1 1\n"),
    "a device": Case("alibaba", "7,W,0,512,0\n9,R,512,512,1\n7,R,1024,512,2\n", "0.000000 0 1 1 1\n", "--device 9"),
    "two devices": Case("alibaba", "7,W,0,512,0\n8,W,0,512,0\n9,R,512,512,1\n7,R,1024,512,2\n",
                        "0.000000 1 0 1 0\n0.001000 0 1 1 1\n0.002000 1 2 1 1\n", "--device 9 --device 7"),
    "all devices": Case("alibaba", "7,W,0,512,0\n9,R,512,512,1\n", "0.000000 0 0 1 0\n0.001000 1 1 1 1\n",
                        "--all-devices"),
    # A third of 10 ns is 3 ns and some.
    "times": Case("disksim", "0 0 0 1 1\n0.000010 0 1 1 1\n", "0.000000 0 0 1 1\n0.000003 0 1 1 1\n",
                  "--time-scale 1/3"),
    # Two arrivals 4 ms apart, three times: each begins 4 ms behind the last of the one before.
    "repeated": Case("disksim", "1 0 0 1 1\n5 0 1 1 1\n", "".join(f"{at}.000000 0 {at // 4 % 2} 1 1\n" for at in
                                                               (0, 4, 8, 12, 16, 20)), "--repeat 3"),
    "sorted": Case("disksim", "5 0 0 1 1\n1 0 1 1 1\n", "0.000000 0 1 1 1\n4.000000 0 0 1 1\n"),
    "cut": Case("disksim", "0 0 0 2049 1\n", "0.000000 0 0 2048 1\n0.000000 0 2048 1 1\n"),
}


def check(folder: Path) -> list[str]:
    """Each case as it is and packed, and each sample, whose trace the program accepts."""
    faults = []
    for name, case in CASES.items():
        plain, packed, trace = folder / "log", folder / "log.gz", folder / "trace"
        plain.write_text(case.log)
        packed.write_bytes(gzip.compress(case.log.encode()))
        for log in (plain, packed):
            done = ended("convert", case.form, log, trace, "--params", ATLAS, *case.words.split())
            if done.status or trace.read_text() != case.trace:
                faults.append(f"{name} gives {trace.read_text()!r} instead of {case.trace!r} {done.err}")
    for sample, (form, number, devices) in SAMPLES.items():
        faults += _sample(folder, sample, form, (number, devices))
    return faults


def _sample(folder: Path, sample: str, form: str, wanted: tuple[int, int]) -> list[str]:
    """The program finds all requests of a sample, on as many devices."""
    number, devices = wanted
    trace = folder / f"{sample}.trace"
    answer("convert", form, HERE / "samples" / sample, trace, "--params", ATLAS, "--all-devices")
    summary = run(program(), "replay", "--params", ATLAS, "--trace", trace, "--policy", "sptf", "--summary").split()
    there = len({line.split()[1] for line in trace.read_text().splitlines()})
    found = int(summary[1]) + int(summary[3])  # of device 0, and passed over
    return [] if (found, there) == wanted else [f"{sample} gives {found} requests of {there} devices, not {wanted}"]
