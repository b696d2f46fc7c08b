"""What the threads of a test can do, one command after the other: all orders of commands with so many preemptions at most.

It shares nothing with the program: a command is done at once here, on the graph of `settling.py`, and not in steps on the words of a heap."""
import copy

from settling import Graph

BLOCKS = ("loop", "if")


class Test:
    """A test as its lines say it: a program for each thread, and how often a thread may go back to the beginning of a loop."""

    def __init__(self, text):
        lines = [line.split(" ") for line in text.splitlines()]
        self.threads = int(lines[2][1])
        self.preemptions, _, self.returns = map(int, lines[3][1:])
        self.notes, self.programs = [], []
        for verb, *words in lines[4:]:
            if verb == "assert":
                break
            if verb == "note":
                self.notes += words
            elif verb == "thread":
                self.programs.append([])
                roots = ["hub"]
            elif verb == "root":
                roots += words
            elif verb != "place":
                self.programs[-1].append((verb, [str(roots.index(it)) if it in roots else it for it in words]))


def behind(program, at, verbs, ends):
    """The number of the statement behind the first of `ends` that belongs to the block in which the statement `at` stands; a block of
    any kind that begins in between is passed over."""
    depth = 0
    while True:
        at += 1
        verb = program[at][0]
        if depth == 0 and verb in ends:
            return at + 1
        depth += (verb in verbs) - (verb == "end")


def blocks(program):
    """For each `end` the number of the statement that begins its block."""
    open_at, begins = [], {}
    for at, (verb, _) in enumerate(program):
        if verb in BLOCKS:
            open_at.append(at)
        elif verb == "end":
            begins[at] = open_at.pop()
    return begins


def loop_around(program, at):
    """The number of the innermost loop around a statement."""
    return max(first for end, first in blocks(program).items() if program[first][0] == "loop" and first < at < end)


def fits(wanted, reply):
    """Whether there is a reply, and it is such."""
    if reply is None:
        return False
    if wanted in ("null", "object"):
        return reply == "-" if wanted == "null" else "." in reply
    return reply == wanted


class Thread:
    """Where a thread stands, and what it was answered."""

    def __init__(self, test, number):
        self.program, self.number = test.programs[number], number
        self.at, self.left, self.replies, self.is_stuck = 0, test.returns, [], False

    def command(self, notes):
        """The command that it gives next, with what it keeps on the way noted; None where it gives no more."""
        reply = self.replies[-1] if self.replies else None
        while self.at < len(self.program) and not self.is_stuck:
            verb, words = self.program[self.at]
            if verb == "keep":
                notes[words[0]] = reply
            elif verb == "until":
                if fits(words[0], reply):
                    first = loop_around(self.program, self.at)
                    self.at = behind(self.program, first, BLOCKS, ("end",))
                    continue
            elif verb == "if":
                if not fits(words[0], reply):
                    self.at = behind(self.program, self.at, BLOCKS, ("else", "end"))
                    continue
            elif verb == "else":
                self.at = behind(self.program, self.at, BLOCKS, ("end",))
                continue
            elif verb == "end":
                first = blocks(self.program)[self.at]
                if self.program[first][0] == "loop":
                    self.is_stuck = self.left == 0
                    self.left -= 1
                    self.at = first
                    continue
            elif verb != "loop":
                return " ".join([verb, *words])
            self.at += 1
        return None


class Run:
    """A run up to some command."""

    def __init__(self, test):
        self.graph, self.notes = Graph(), dict.fromkeys(test.notes)
        self.threads = [Thread(test, number) for number in range(test.threads)]
        self.next = [thread.command(self.notes) for thread in self.threads]
        self.back = [False] * test.threads
        self.last = None

    def costs(self):
        """For each thread that may go how many preemptions that would be."""
        going = [number for number, command in enumerate(self.next) if command]
        if self.last in going and not self.back[self.last]:
            return {number: int(number != self.last) for number in going}
        if all(self.back[number] for number in going):
            self.back = [False] * len(self.back)
        return {number: int(self.back[number]) for number in going}

    def step(self, number):
        """The run behind the next command of a thread."""
        run = copy.deepcopy(self)
        thread = run.threads[number]
        left = thread.left
        thread.replies.append(run.graph.answer(number + 1, run.next[number]))
        thread.at += 1
        run.next[number] = thread.command(run.notes)
        run.back[number], run.last = thread.left < left and not thread.is_stuck, number
        return run

    def rows(self):
        """The objects that are left, and what they hold."""
        left = ["0.1", *(name for roots in self.graph.roots.values() for name in roots if name)]
        rows = {}
        while left:
            name = left.pop()
            if name not in rows:
                fields, numbers = self.graph.objects[name]
                rows[name] = (tuple(fields), tuple(numbers))
                left += [it for it in fields if it]
        return tuple(sorted(rows.items()))

    def outcome(self):
        """What the notes and the graph are, and which thread is stuck first."""
        stuck = next((thread.number for thread in self.threads if thread.is_stuck), None)
        return tuple(self.notes.items()), self.rows(), stuck

    def state(self):
        """All that tells this run from others."""
        return tuple((tuple(it.replies), it.at, it.left) for it in self.threads), tuple(self.notes.items()), self.rows(), tuple(self.back), self.last


def explored(text):
    """How many different histories, up to the order of entries of different threads, and outcomes the runs of a test have."""
    test = Test(text)
    spent_at, left = {}, [(0, Run(test))]
    histories, outcomes = set(), set()
    while left:
        spent, run = left.pop()
        costs = run.costs()
        if not costs:
            outcomes.add(run.outcome())
            histories.add((tuple(tuple(it.replies) for it in run.threads), run.outcome()))
        for number, cost in costs.items():
            if spent + cost > test.preemptions:
                continue
            after = run.step(number)
            if spent_at.get(after.state(), test.preemptions + 1) > spent + cost:
                spent_at[after.state()] = spent + cost
                left.append((spent + cost, after))
    return {"histories": len(histories), "outcomes": len(outcomes)}
