"""The reports of inputs by bench/simulator.rs, which shares nothing with the planner."""
import shutil
import subprocess
import tempfile
from concurrent.futures import ThreadPoolExecutor
from pathlib import Path

SOURCE = Path(__file__).resolve().parent.parent / "bench/simulator.rs"
# so many processes of it, each of which is asked a share of the inputs
SHARES = 8


def rustc():
    """Where the compiler is: on the path, or where rustup puts it. None if it is in neither place."""
    usual = Path.home() / ".cargo/bin/rustc"
    return shutil.which("rustc") or (usual if usual.exists() else None)


def ask(program, inputs):
    """What the program answers to each input, in their order."""
    asked = "".join(f"{data.hex()}\n" for data in inputs)
    told = subprocess.run([program, "--lines"], input=asked.encode(), stdout=subprocess.PIPE, check=True).stdout.decode()
    # an empty line stands behind each report
    return [f"{report}\n" for report in told.split("\n\n")[:-1]]


def reports(inputs):
    """The report of each input, by the input."""
    with tempfile.TemporaryDirectory() as folder, ThreadPoolExecutor() as pool:
        program = f"{folder}/simulator"
        subprocess.run([rustc(), "-O", "--edition", "2024", SOURCE, "-o", program], check=True)
        shares = [inputs[first::SHARES] for first in range(SHARES)]
        answered = pool.map(lambda share: zip(share, ask(program, share), strict=True), shares)
        return {data: report for share in answered for data, report in share}
