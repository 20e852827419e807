# The oracle command: a copy of the oracle folder, its originals checked and built offline,
# and asked line by line. Every answer in the files comes through `Oracle.ask`.

import shutil
import subprocess
from pathlib import Path

PATCH = Path(__file__).with_name("nat-start.patch")


# Copies the oracle folder, checks the originals, builds; the path of the command.
def built(folder, place):
    copy = Path(place) / "oracle"
    left_out = shutil.ignore_patterns("target", "out", ".git")
    shutil.copytree(folder, copy, symlinks=True, ignore=left_out)
    for path in [copy, *copy.rglob("*")]:
        if not path.is_symlink():
            path.chmod(path.stat().st_mode | 0o200)
    for command in (["./link.sh"], ["./verify.sh"]):
        subprocess.run(command, cwd=copy, check=True)
    source = copy / "driver/src/bin/oracle.rs"
    if "nat BOUND HEX [START]" not in source.read_text():
        subprocess.run(["patch", "-p1", "-i", PATCH.resolve()], cwd=copy, check=True)
    subprocess.run(["cargo", "build", "--offline", "--release", "--quiet"], cwd=copy, check=True)
    return copy / "target/release/oracle"


class Oracle:
    def __init__(self, command):
        self.command = command

    # The answers to a list of questions, in order.
    def ask(self, questions):
        sent = "".join(question + "\n" for question in questions)
        answers = subprocess.check_output([self.command], input=sent, text=True).splitlines()
        assert len(answers) == len(questions), "a question was left without an answer"
        for question, answer in zip(questions, answers):
            assert answer != "bad question", question
        return answers


# The number behind `name=` in an answer.
def number(answer, name):
    return int(field(answer, name))


# The text behind `name=` in an answer.
def field(answer, name):
    return answer.split(f" {name}=", 1)[1].split(" ", 1)[0]
