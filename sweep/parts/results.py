"""The results of a sweep, one line of JSON for each edit tried, so that a sweep goes on where it was stopped."""
import json


class Results:
    def __init__(self, path):
        self.path = path
        self.known = {}
        if path.exists():
            for line in path.read_text().splitlines():
                one = json.loads(line)
                self.known[one["key"]] = one

    def add(self, edit, verdict, stage, answer):
        one = {
            "key": edit.key(),
            "crate": edit.crate(),
            "part": edit.part(),
            "file": edit.file,
            "line": edit.line,
            "item": edit.item,
            "kind": edit.kind,
            "old": edit.old,
            "new": edit.new,
            "verdict": verdict,
            "stage": stage,
            "said": answer.line(240),
            "seconds": round(answer.seconds, 1),
        }
        self.known[one["key"]] = one
        with self.path.open("a") as file:
            file.write(json.dumps(one, ensure_ascii=False) + "\n")
        return one
