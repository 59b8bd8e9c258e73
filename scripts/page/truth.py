"""What `elide debug`, `elide gdb` and `elide stats` say of a run, at the steps at which a page was looked at."""

import json
import re
import subprocess

# Options that say which steps are made; the others are the machine's.
SCHEDULE = ("--steps", "--random", "--limit", "--schedule", "--events", "--seed")


def little(digits):
    return bytes.fromhex(digits)[::-1].hex()


class Run:
    """A program, the options of the machine and of the schedule, and the core of each step."""

    def __init__(self, program, words, order):
        self.program, self.words, self.order = program, words, order

    def ask(self, command, words, text):
        run = subprocess.run([self.program, command, *words], input=text, capture_output=True, check=False)
        return run.stdout

    def machine(self):
        words, rest = [], iter(self.words)
        for word in rest:
            if word in SCHEDULE:
                next(rest)
            elif word != "--in-turn":
                words.append(word)
        return words

    def states(self, steps, cores, spots):
        """For each of the steps, in rising order: the lines of `regs` and `sets` of each core, and memory's words at its spots."""
        lines, at = [], 0
        for step in steps:
            lines += [f"next {step - at}"] if step > at else []
            lines += [f"{what} {core}" for core in range(cores) for what in ("regs", "sets")]
            lines += [f"mem {address} 4" for address in spots[step]]
            at = step
        answers = iter(self.ask("debug", self.words, ("\n".join(lines) + "\n").encode()).decode().splitlines())
        found, at = {}, 0
        for step in steps:
            for _ in range(step - at):
                next(answers)
            at = step
            told = [(next(answers), next(answers)) for _ in range(cores)]
            memory = {address: little(next(answers).split()[1]) for address in spots[step]}
            found[step] = told, memory
        return found

    def private_words(self, asks):
        """Words as cores see them: of each (step, core, address), in rising order of steps."""
        packet = lambda text: b"$%s#%02x" % (text.encode(), sum(text.encode()) & 255)
        sent, wanted, at, count = [packet("QStartNoAckMode"), b"+"], [], 0, 1
        for step, core, address in asks:
            for number in self.order[at:step]:
                sent += [packet(f"Hg{number + 1:x}"), packet(f"Hc{number + 1:x}"), packet("s")]
                count += 3
            at = max(at, step)
            sent += [packet(f"Hg{core + 1:x}"), packet(f"m{address:x},4")]
            wanted.append(count + 1)
            count += 2
        out = self.ask("gdb", self.machine(), b"".join(sent) + packet("D"))
        answers = re.findall(rb"\$([^#]*)#..", out)
        return [little(answers[index].decode()) if index < len(answers) else None for index in wanted]

    def stats(self):
        transactions = json.loads(self.ask("stats", [*self.words, "--json"], b""))["transactions"]
        return {what: sum(one[what] for one in transactions) for what in ("begun", "aborted", "committed")}
