"""Compares the model's answers to the own cases with those of the Rust, where the two must agree.

The Rust is the program `oracle` of the list's source (`ops E KIND`, `op TICK FIRST HEX`, `load HEX`, `q TICK START END`, `go`; answers up to `end`). It knows one
kind at a time, so each kind of a list is a job of its own. The records of a kind go to it with the accepted ones alone (D3), and are cut before the first that meets
D1 or D2. Its blocks, finds and, after renumbering (D4), its file must be the model's for that kind, which is given the kinds together. A file that the model
takes must be taken with the same next position, finds and bytes; one that it refuses with 17 must make the Rust panic or end; 18 to 24 may go either way (D5).
"""
import subprocess

from board_model import WORD, Fields, Model, file_bytes, hexed, nodes_of, unhexed

WIDE = ["100000"] * 6


class Oracle:
    def __init__(self, program):
        self.program, self.run = program, None

    def ask(self, lines):
        """The lines of its answer, or None where the program ends."""
        if self.run is None or self.run.poll() is not None:
            self.run = subprocess.Popen([self.program], stdin=subprocess.PIPE, stdout=subprocess.PIPE, stderr=subprocess.DEVNULL, text=True)
        answer = []
        try:
            self.run.stdin.write("\n".join(lines + ["go"]) + "\n")
            self.run.stdin.flush()
            while (line := self.run.stdout.readline()) != "end\n":
                if not line:
                    self.run.wait()
                    return None
                answer.append(line.rstrip("\n"))
        except BrokenPipeError:
            return None
        return answer


def differs(model, kind, first, data):
    """D1 or D2, of an operation on the pieces of its kind as they stand."""
    end = first + len(data)
    over = model.overlapped(kind, first, data)
    if not over:
        return False
    if not model.is_read(kind, first, data) and any(p.first <= first and end < p.end for p in over):
        return True
    last = over[-1].end
    return last < end and model.is_read(kind, first, data[:last - first])


def key(block):
    return block.first, len(block.data), block.created, block.destroyed, block.data


def shown(block):
    return f"{block.first} {len(block.data)} {block.created} {block.destroyed} {hexed(block.data)}"


def renumbered(file, blocks):
    """The Rust's file with its blocks in the order of `blocks`."""
    if not file:
        return file
    kind, found, root = Fields(file, 0).file_of()
    order = {key(b): place for place, b in enumerate(blocks)}
    places = [order.get(key(b)) for b in found]
    if None in places:
        return None
    for node in nodes_of(root):
        node.entries = [places[n] for n in node.entries]
    return file_bytes(kind, blocks, root)


def finds_of(model, kind, queries):
    lines = []
    for tick, start, end in queries:
        numbers = [int(n) for n in model.answer(["find", kind, tick, start, end, "100000"]).split()[2:]]
        lines += [f"find {len(numbers)}"] + ["hit " + shown(model.blocks[n]) for n in numbers]
    return lines


def queries_of(model, calls):
    """The windows of all finds, whatever their kinds."""
    windows = [call[-4:-1] for call in calls if call[0] == "find"]
    return [w for w in windows if int(w[0]) < model.end and int(w[1]) <= int(w[2]) < WORD]


def agree(oracle, model, kind, head, front, file, queries):
    """Whether the Rust says `front`, the file, and the model's finds of the kind."""
    answer = oracle.ask(head + ["q " + " ".join(w) for w in queries])
    if answer is None or answer[:len(front)] != front or not answer[len(front)].startswith("file "):
        return False
    own = [b for b in model.blocks if b.kind == kind and b.created < b.destroyed]
    theirs = renumbered(unhexed(answer[len(front)].split()[1]), own)
    return theirs == file and answer[len(front) + 1:] == finds_of(model, kind, queries)


def kind_agrees(oracle, model, kind, records, calls):
    """What a finished index has of one kind, by its accepted records."""
    front = ["block " + shown(b) for b in model.blocks if b.kind == kind]
    file = file_bytes(kind, model.blocks, model.roots[kind]) if kind in model.roots else b""
    head = [f"ops {model.end} {kind}"] + ["op " + " ".join(r[2:]) for r in records]
    return agree(oracle, model, kind, head, front, file, queries_of(model, calls) if file else [])


def list_agrees(oracle, end, kinds, records, calls):
    """One list of accepted records: each of its kinds; the first one also where it has none."""
    model = Model()
    model.answer(["open", end, kinds] + WIDE)
    for record in records:
        model.answer(record)
    model.answer(["finish"])
    parts = {int(record[1]): [] for record in records} or {min(model.kinds): []}
    for record in records:
        parts[int(record[1])].append(record)
    return all(kind_agrees(oracle, model, kind, part, calls) for kind, part in parts.items())


def file_agrees(oracle, call, calls):
    """One file: None where the Rust may say anything."""
    at, content = int(call[1]), unhexed(call[6])
    content = content[at:] if at <= len(content) else b""
    model = Model()
    answer = model.answer(["load", "0"] + WIDE[:4] + [hexed(content)]).split()
    head = ["load " + hexed(content)]
    if answer == ["refused", "17"]:
        told = oracle.ask(head)
        return told is None or told[0].startswith("panic")
    if answer[0] == "refused":
        return None
    return agree(oracle, model, int(answer[2]), head, ["next " + answer[0]], content[:int(answer[0])], queries_of(model, calls))


def lists_of(calls):
    """The lists of a case that are finished: end tick, kinds, the accepted records, those of each kind up to its first D1 or D2."""
    model, head, records, cut = Model(), None, [], set()
    for call in calls:
        if call[0] == "damaged":
            continue
        call = model.named(call)
        meets = call[0] == "record" and model.state == "open" and differs(model, int(call[1]), int(call[3]), unhexed(call[4]))
        answer = model.answer(call)
        if answer.startswith("refused"):
            continue
        if call[0] == "open":
            head, records, cut = call[1:3], [], set()
        elif call[0] == "record":
            cut |= {call[1]} if meets else set()
            records += [] if call[1] in cut else [call]
        elif call[0] == "finish":
            yield head[0], head[1], records


def compare(program, cases):
    """Counts what was compared; gives the names of the cases that differ."""
    oracle, lists, files, differ = Oracle(program), 0, 0, []
    for name, calls in cases:
        for end, kinds, records in lists_of(calls):
            lists += 1
            if not list_agrees(oracle, end, kinds, records, calls):
                differ.append(name)
        for call in calls:
            alike = file_agrees(oracle, call, calls) if call[0] == "load" else None
            files += alike is not None
            if alike is False:
                differ.append(name)
    return lists, files, differ
