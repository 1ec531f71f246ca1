"""Asks which of these packages can be installed, and of the first one that can in what order, each question after the reply before."""
import json
import subprocess

WORDS = ["debplan", "batch", "--arch", "amd64", "--status", "status", "--sources", "sources"]


def asked(program, question):
    """The reply to a question."""
    program.stdin.write(json.dumps(question) + "\n")
    program.stdin.flush()
    return json.loads(program.stdout.readline())


with subprocess.Popen(WORDS, stdin=subprocess.PIPE, stdout=subprocess.PIPE, encoding="utf-8") as batch:
    for name in ("cowsay", "postfix"):
        reply = asked(batch, {"id": name, "ask": "solve", "goals": [f"install {name}"]})
        print(reply["id"], reply.get("answer") or reply["refused"])
        if reply.get("answer") == "plan":
            print(asked(batch, {"ask": "check-plan", "goals": [f"install {name}"], "plan": reply["text"]})["answer"])
