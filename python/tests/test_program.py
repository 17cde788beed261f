import os

import pytest

from inputflinger import InputflingerError, RunError, Status, run

EXAMPLES = os.path.join(os.path.dirname(os.path.abspath(__file__)), "../../examples")


def text(*names: str) -> str:
    with open(os.path.join(EXAMPLES, *names), encoding="utf-8") as file:
        return file.read()


@pytest.mark.parametrize("name", sorted(name for name in os.listdir(EXAMPLES) if os.path.exists(os.path.join(EXAMPLES, name, "wanted.txt"))))
def test_examples_give_their_texts(name: str) -> None:
    files = {"session.toml": text(name, "session.toml"), "recording.txt": text(name, "recording.txt")}
    ran = run(["replay", "--session=session.toml", "--events", "recording.txt"], files)
    assert (ran.out + ran.err, ran.status) == (text(name, "wanted.txt"), int(text(name, "status")))


def test_a_text_longer_than_the_first_room() -> None:
    down, up = text("tap", "recording.txt").split("[   12345.180000]", 1)
    move = "[   12345.1%05d] /dev/input/event2: 0003 0035 %08x\n[   12345.1%05d] /dev/input/event2: 0000 0000 00000000\n"
    moves = "".join(move % (i, 1 + i % 1000, i) for i in range(1, 3001))
    ran = run("replay --session s --events r", {"s": text("tap", "session.toml"), "r": down + moves + "[   12345.180000]" + up}).check()
    assert len(ran.out) > 65536 and ran.out.count(" motion 1 MOVE ") == 3000
    assert ran.out.splitlines()[-1] == "end 1 sent 3002 received 3002 finished 3002"


def test_a_refusal_and_what_does_not_run() -> None:
    ran = run("verify --stream broken", {"broken": text("verify", "broken.txt")})
    assert (ran.out, ran.err, ran.status) == ("", "stream: NotWellFormed 4\n", 1)
    with pytest.raises(RunError) as error:
        ran.check()
    assert error.value.status == 1 and error.value.line == "stream: NotWellFormed 4\n"
    with pytest.raises(InputflingerError) as refused:
        run("race --session a --events b", {"a": "", "b": ""})
    assert refused.value.status == Status.NO_THREADS
    with pytest.raises(InputflingerError) as refused:
        run("verify --stream a", {"a": "", "b": "", "c": "", "d": ""})
    assert refused.value.status == Status.OUT_OF_RANGE
    with pytest.raises(ValueError):
        run(["verify", "--stream\n"], {})
