"""The studies, one module each, and all of them by name."""

from lab.study import Study
from lab.studies import backup, cleaning, load, sizes, use_of_time, whole_scan

STUDIES: dict[str, Study] = {study.name: study for study in (
    use_of_time.STUDY, use_of_time.DISKS, whole_scan.STUDY, sizes.STUDY, load.STUDY, cleaning.STUDY, backup.STUDY)}
