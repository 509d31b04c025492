"""The client of the package mouktelf, with the calls of the vectors (run_vectors.py)."""

import mouktelf

MARKS = ("none", "full", "keep")


def shown(text):
    units = memoryview(text.encode("utf-16-le", "surrogatepass")).cast("H")
    return "".join(chr(it) if 32 <= it <= 126 and it != 92 else f"\\u{it:04x}" for it in units)


def told(token):
    """A token as a report has it; None of one that no caller is told."""
    if isinstance(token, mouktelf.Message):
        return f"{'error' if token.is_error else 'info'} {token.number} {shown(token.text)}"
    if isinstance(token, mouktelf.ReturnStatus):
        return f"status {token.value}"
    if isinstance(token, mouktelf.Columns):
        # The package tells how many columns there are, and not their names: in the batch language it is `n`.
        return "columns " + ",".join("n" * token.count)
    if isinstance(token, mouktelf.Row):
        return "row " + ",".join(map(str, token.values))
    if isinstance(token, mouktelf.Done):
        return f"done {token.status:04x} {token.rows}"
    return None


class Client:
    def __init__(self, size):
        self.size, self.client, self.rest = size, mouktelf.StrictClient(size), b""
        self.batch, self.begin = self.client.start_batch, self.client.start_begin
        self.commit, self.rollback = self.client.start_commit, self.client.start_rollback

    def state(self):
        mark = MARKS[self.client._value.mark]
        return {"stage": self.client.stage.name.lower(), "descriptor": self.client.descriptor, "mark": mark}

    def mark_reset(self, reset):
        self.client.mark_reset(mouktelf.Reset(MARKS.index(reset)))

    def send(self):
        answer, out = self.client.send()
        return answer.name.lower(), out

    def cancel(self):
        answer, out = self.client.cancel()
        return answer.name.lower(), out

    def came(self, data):
        packets, self.rest = mouktelf.packets_of(self.rest + data, self.size)
        tokens = [token for it in packets for token in self.client.take(it).tokens]
        return [it for it in map(told, tokens) if it]
