"""Asks three times, and prints the steps of the plan, the reasons of the refutation, or what is refused."""
import debplan

with debplan.Resolver(arch="amd64", status="status", sources="sources") as resolver:
    for goals in (["install hello"], ["install exim4-daemon-light", "install postfix"], ["install cowsay"]):
        try:
            answer = resolver.solve(*goals, archives=True)
        except debplan.Refused as refused:
            print("refused:", refused)
            continue
        if isinstance(answer, debplan.Plan):
            print(*answer.steps, sep="\n")
            print("bytes:", sum(step.size or 0 for step in answer.steps if isinstance(step, debplan.Unpack)))
            print("judged:", resolver.check_plan(answer.request, answer).is_good)
        else:
            print(*answer.reasons, sep="\n")
