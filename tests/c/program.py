"""Reads calls from standard input, and answers each call with the command line tool `capn`. The variable CAPN names the
tool. The answers have the format of the expected answers.

The program can't unpack with a limit of fewer than 2,050 message words. If a call allows fewer words, and the packed
bytes unpack to more or are rejected, this script answers `?`."""
import os
import subprocess
import sys


def run(words, data):
    """Runs `capn`. Returns its status, its output, and its text on standard error."""
    ran = subprocess.run([os.environ["CAPN"], *words], input=data, capture_output=True)
    return ran.returncode, ran.stdout, ran.stderr.decode().removeprefix("capn: ").removesuffix("\n")


def digits(data):
    return data.hex() or "-"


def priced(words, data):
    """Returns what `capn check` prints: the cost of a message, and the number of followed pointers. For bytes without a
    segment table (`bare`), also returns whether they are canonical."""
    status, wrote, refusal = run(["check", *words], data)
    if status:
        return None, None, refusal
    _, _, paid, _, visits, *canonical = wrote.decode().split()
    return f"paid {paid}", f"visits {visits}", " ".join(canonical)


def unpacked(most, data):
    status, wrote, refusal = run(["unpack"], data)
    if most < 2050 and (status or len(wrote) > 8 * most):
        return "?"
    return refusal.removeprefix("packed: ") if status else digits(wrote)


def answer(words):
    tariff = []
    if words[0] == "plain":
        tariff, words = ["--tariff", "plain"], words[1:]
    call, data = words[0], b"" if words[-1] == "-" else bytes.fromhex(words[-1])
    if call == "run":
        status, wrote, refusal = run(words[2:-1], data)
        return f"status {status}, {digits(wrote)}" + (f", capn: {refusal}" if status else "")
    if call == "pack":
        status, wrote, refusal = run(["pack"], data)
        return refusal if status else digits(wrote)
    if call == "unpack":
        return unpacked(int(words[1]), data)
    message_words, budget, depth = words[-4:-1]
    form = "bare" if call == "is_canonical" else words[1]
    options = ["--form", form, "--message-words", message_words, "--budget", budget, "--depth", depth, *tariff]
    if call == "survey":
        paid, visits, canonical = priced(options, data)
        return f"{paid}, {visits}" if paid else canonical
    status, wrote, refusal = run(["canonical", *options], data)
    if status:
        return refusal
    paid, _, canonical = priced(options, data)
    if call == "is_canonical":
        return {"canonical": "true", "not-canonical": "false"}[canonical]
    return f"{paid}, {digits(wrote)}"


for line in sys.stdin:
    print(answer(line.split()))
