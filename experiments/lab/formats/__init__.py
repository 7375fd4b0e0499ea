"""The formats of traces that can be converted, by name."""

from lab.foreign import Format
from lab.formats import alibaba, biosnoop, blktrace, disksim, fio, fio_iolog, msr, spc

FORMATS: dict[str, Format] = {
    "fio": fio.FORMAT, "fio-iolog": fio_iolog.FORMAT, "blktrace": blktrace.FORMAT, "biosnoop": biosnoop.FORMAT,
    "disksim": disksim.FORMAT, "msr": msr.FORMAT, "spc": spc.FORMAT, "alibaba": alibaba.FORMAT,
}
