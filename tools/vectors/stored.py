"""What a replay program reads and must write, in two parts: the vectors of a script of this folder, then a sample of the Rust's answers (oracle/sample,
which `compare --emit` writes). A script stores its own part and takes the other as it stands."""
import pathlib


def store(name, records, lines):
    for part, own in (('stdin', records), ('stdout', lines.encode())):
        sample = pathlib.Path(f'oracle/sample/{name}.{part}').read_bytes()
        pathlib.Path(f'crates/replay_{name}/{part}').write_bytes(own + sample)
